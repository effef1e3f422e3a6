#!/bin/sh
# build.sh RUST_SOURCES OUT: compiles the AGS1 files of Apache Iceberg's Rust, unchanged, to OUT/libiceberg.rlib.
#
# RUST_SOURCES is the folder of the crate iceberg 0.10.1: of it src/error.rs, src/io/file_io.rs,
# src/encryption/crypto.rs and src/encryption/stream.rs are read. The crates that these name are replaced by the files
# of stand/, which have their names and little behind them: AES-GCM is that of OpenSSL's libcrypto, random numbers come from
# a generator that is seeded. So rustc and libcrypto are all that is needed. Overflow checks stay on: a sum that
# wrapped would end the run.
set -eu

if [ $# -ne 2 ]; then
    echo 'usage: build.sh RUST_SOURCES OUT' >&2
    exit 2
fi
stand=$(cd "$(dirname "$0")" && pwd)/stand
sources=$(cd "$1" && pwd)/src
mkdir -p "$2"
out=$(cd "$2" && pwd)

compile() { # CRATE TYPE FILE [WORDS]: one crate, with those made before it at hand
    crate=$1 type=$2 file=$3
    shift 3
    rustc --edition 2024 -O -C overflow-checks=on --cap-lints allow --crate-name "$crate" --crate-type "$type" \
        -L "$out" --out-dir "$out" "$@" "$file"
}

compile async_trait proc-macro "$stand/async_trait.rs" --extern proc_macro
for crate in anyhow bytes chrono futures getrandom zeroize; do
    compile $crate rlib "$stand/$crate.rs"
done
compile aes_gcm rlib "$stand/aes_gcm.rs" --extern getrandom
for crate in apache_avro arrow_schema parquet reqwest serde_json url uuid; do
    compile $crate rlib "$stand/named_error.rs"
done

cat > "$out/iceberg.rs" <<END
#[path = "$sources/error.rs"]
pub mod error;
pub use error::{Error, ErrorKind, Result};

pub mod io {
    #[path = "$sources/io/file_io.rs"]
    mod file_io;
    pub use file_io::*;
    #[path = "$stand/storage.rs"]
    mod storage;
}

pub mod encryption {
    #[path = "$sources/encryption/crypto.rs"]
    mod crypto;
    pub use crypto::{AesGcmCipher, SecureKey};
    #[path = "$sources/encryption/stream.rs"]
    pub mod stream;
}
END
set --
for crate in aes_gcm anyhow apache_avro arrow_schema async_trait bytes chrono futures parquet reqwest serde_json url uuid zeroize; do
    set -- "$@" --extern $crate
done
compile iceberg rlib "$out/iceberg.rs" "$@"
