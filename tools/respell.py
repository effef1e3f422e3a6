#!/usr/bin/env python3
"""Respells the repository's own definitions and lemmas: words in snake case, a dash only between two names of functions.

usage: tools/respell.py, once, at the top, after the kit's port.py

It goes by the table below, old name and new name, over specs/, proofs/ and the clauses of src/. Strings, names that a file
takes from a library, functions of src/, inputs and outputs keep their spelling. Three new names are not the plain turn of
the old one, since that would have fallen together with another name: block_count_of, file_length_of and in_limits_true.
"""

import os
import re

TABLE = """
Y-front Y_front
aad-front aad_front
addRoundKey add_round_key
affine-bit-lt affine_bit_lt
affine-bits-lt affine_bits_lt
affineBit affine_bit
affineBits affine_bits
after-close after_close
allHold all_hold
answerFor answer_for
answerText answer_text
apart-front apart_front
append-middle append_middle
append-rest append_rest
asked-both asked_both
asked-help asked_help
asked-length asked_length
asked-no-length asked_no_length
asked-no-size asked_no_size
asked-other asked_other
at-most-once at_most_once
at-parts at_parts
be8-same be8_same
begin-keeps begin_keeps
beginRun begin_run
between-length between_length
bit-lt bit_lt
bits-wrap bits_wrap
block-append block_append
block-fails block_fails
block-opened block_opened
block-opens block_opens
block-padded block_padded
block-there block_there
blockAad block_aad
blockBy block_by
blockCount block_count_of
blockIn block_in
blockRefusal block_refusal
blockStart block_start
blockText block_text
blocks-back blocks_back
blocks-past blocks_past
byte-is byte_is
byte-keeps byte_keeps
bytes-at bytes_at
bytes-of-word bytes_of_word
bytesBig bytes_big
bytesOfWords bytes_of_words
call-keeps call_keeps
case-1 case_1
case-2 case_2
caseText case_text
cipher-128 cipher_128
cipher-192 cipher_192
cipher-256 cipher_256
cipherReport cipher_report
close-keeps close_keeps
closed-holds closed_holds
closed-law closed_law
closed-one closed_one
closed-push closed_push
closedFrom closed_from
closedShape closed_shape
codeName code_name
codeNumber code_number
column-is column_is
counted-after counted_after
counted-at counted_at
counted-distinct counted_distinct
counted-more counted_more
counted-twelve counted_twelve
countedFrom counted_from
counts-full counts_full
course-none course_none
course-push course_push
covers-if covers_if
does-last does_last
does-none does_none
does-of does_of
drawRefusal draw_refusal
drop-distinct drop_distinct
drop-drawn drop_drawn
drop-exhausted drop_exhausted
drop-row drop_row
drop-twelve drop_twelve
early-outside early_outside
ended-err ended_err
ended-fresh ended_fresh
ended-none ended_none
ended-ok ended_ok
expand-more expand_more
expand-none expand_none
expand-turn expand_turn
expansion-128 expansion_128
expansion-192 expansion_192
expansion-256 expansion_256
fail-on fail_on
fileBytes file_bytes
fileLength file_length_of
final-by final_by
final-is final_is
finalColumn final_column
finalRound final_round
first-digit first_digit
first-product first_product
frame-written frame_written
framed-one framed_one
framed-parts framed_parts
from-distinct from_distinct
from-twelve from_twelve
full-stands full_stands
gap-end gap_end
gap-turn gap_turn
gather-full gather_full
gather-short gather_short
gcm-keeps gcm_keeps
gcm-one gcm_one
gcm-opens gcm_opens
gcm-refuses gcm_refuses
gcm-tags gcm_tags
gcmOf gcm_of
gctr-back gctr_back
gctrOf gctr_of
ghash-next ghash_next
ghash-nil ghash_nil
ghashOf ghash_of
gmac-is gmac_is
gmac-one gmac_one
gmac-refuses gmac_refuses
gmacOf gmac_of
hash-both hash_both
hash-subkey hash_subkey
hashOf hash_of
heldIn held_in
help-alone help_alone
help-more help_more
in-limits in_limits_true
inLimits in_limits
index-under index_under
into-end into_end
into-turn into_turn
inverseUpTo inverse_up_to
is-file is_file
is-nonce is_nonce
is-parts is_parts
is-proper is_proper
isClosed is_closed
isOpen is_open
isPlaintext is_plaintext
its-nonce its_nonce
ivBytes iv_bytes
joined12-is joined12_is
key-of-front key_of_front
keyBytes key_bytes
keyLength key_length
keySize key_size
keyWord key_word
keyWords key_words
kind-differing kind_differing
kmsReport kms_report
last-keeps last_keeps
lastRun last_run
layerName layer_name
leading-zero leading_zero
length-big length_big
length-block length_block
length-keystream length_keystream
length-law length_law
length-less length_less
length-o1 length_o1
length-o2 length_o2
length-put length_put
lengthAnswer length_answer
limitPort limit_port
lineText line_text
list-end list_end
list-more list_more
listText list_text
losses-lost losses_lost
losses-more losses_more
losses-new losses_new
lostBy lost_by
lostFrom lost_from
lostIn lost_in
managerReport manager_report
maskedOf masked_of
measured-file measured_file
measured-in measured_in
measured-none measured_none
memory-refused memory_refused
memoryBytes memory_bytes
memoryPort memory_port
mixColumn mix_column
mixColumns mix_columns
mixed-at mixed_at
mixed-computed mixed_computed
mixedByte mixed_byte
mixedColumn mixed_column
mixedTable mixed_table
mod-mod-two mod_mod_two
next-V next_V
next-Y next_Y
next-Z next_Z
next-mul next_mul
next-shows next_shows
nextWord next_word
no-leading-zero no_leading_zero
noNonce no_nonce
nonceIn nonce_in
nonces-lost nonces_lost
nonces-more nonces_more
nonces-new nonces_new
none-seals none_seals
not-early not_early
not-refused not_refused
notTaken not_taken
of-block of_block
ofCipher of_cipher
ofStorage of_storage
off-limits off_limits
openRefusal open_refusal
opens-only opens_only
opens-part opens_part
or-none or_none
outcome-err outcome_err
outcome-failed outcome_failed
outcome-of outcome_of
outcome-ok outcome_ok
outcome-open outcome_open
part-seals part_seals
plain-within plain_within
plainBytes plain_bytes
plainIn plain_in
plainLength plain_length
product-13 product_13
product-83 product_83
push-append push_append
push-end push_end
push-failed push_failed
push-full push_full
push-keeps push_keeps
push-none push_none
push-short push_short
pushByte push_byte
pushBytes push_bytes
put-both-is put_both_is
range-row range_row
rcon-at rcon_at
rcon-computed rcon_computed
reads-back reads_back
reads-number reads_number
refused-push refused_push
refused-run refused_run
reportText report_text
rest-is rest_is
rolePosition role_position
rotWord rot_word
roundConstants round_constants
roundKey round_key
rowHolds row_holds
same-as same_as
same-port same_port
same-sealed same_sealed
sameAnswer same_answer
sbox-53 sbox_53
sbox-at sbox_at
sbox-computed sbox_computed
sbox-lt sbox_lt
sboxTable sbox_table
sealRefusal seal_refusal
sealed-length sealed_length
sealed-opens sealed_opens
sealedAs sealed_as
sealedOf sealed_of
sendRun send_run
sent-bytes sent_bytes
sent-run sent_run
shiftRows shift_rows
short-refused short_refused
sizeBytes size_bytes
span-is span_is
start-within start_within
stateIn state_in
step-on step_on
storageReport storage_report
streamReport stream_report
subBytes sub_bytes
subWord sub_word
subkeyOf subkey_of
summaryText summary_text
taken-lost taken_lost
taken-new taken_new
tallied-le tallied_le
tallied-more tallied_more
test-is test_is
text-is text_is
text-opens text_opens
text-refuses text_refuses
text-short text_short
text-there text_there
textIn text_in
three-rest three_rest
times-lt times_lt
timesX times_x
twelve-all twelve_all
twelve-at twelve_at
twelve-taken twelve_taken
twoBytes two_bytes
twoPort two_port
usageMessage usage_message
windowBytes window_bytes
wiped-front wiped_front
wiped-long wiped_long
wiped-short wiped_short
word-bit word_bit
word-of-bytes word_of_bytes
words-of-bytes words_of_bytes
words-turn words_turn
written-across written_across
written-push written_push
wrote-failed wrote_failed
xor-back xor_back
xor-bit xor_bit
xor-byte xor_byte
xor-into-more xor_into_more
xor-more xor_more
xor-none xor_none
xor-twice xor_twice
xor-word xor_word
xor-words xor_words
xorBytes xor_bytes
xtime-lt xtime_lt
zeroBlock zero_block
"""

NAMES = dict(line.split() for line in TABLE.strip().splitlines())
WORD = re.compile(r"""("(?:[^"\\]|\\.)*")|([A-Za-z_][\w'′₀-₉-]*)""")
IMPORT = re.compile(r"^(?:pub )?(?:ghost )?use (?:Rattle\.std|borrow|native|logic|lib|Prim|denote)\.[^;{]*\{([^}]*)\}", re.M)


def taken(text):
    """The names that a file takes from a library."""
    return {word for group in IMPORT.findall(text) for item in group.split(",") for word in item.split()}


def turn(text):
    library = taken(text)

    def one(match):
        if match.group(1):
            return match.group(1)
        word = match.group(2)
        return word if word in library else NAMES.get(word, word)

    return WORD.sub(one, text)


def main():
    changed = 0
    for folder, folders, files in os.walk("crates"):
        folders[:] = [name for name in folders if name != "out"]
        for name in files:
            if name.endswith((".rt", ".antt")):
                path = os.path.join(folder, name)
                with open(path, encoding="utf-8") as file:
                    text = file.read()
                new = turn(text)
                if new != text:
                    with open(path, "w", encoding="utf-8") as file:
                        file.write(new)
                    changed += 1
    print(f"respell: {changed} files")


if __name__ == "__main__":
    main()
