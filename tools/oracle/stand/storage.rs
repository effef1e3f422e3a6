//! Stands in for iceberg's own module io::storage: the types that file_io.rs calls. There is no storage behind them.

use super::{FileMetadata, FileRead, FileWrite, InputFile, OutputFile};
use crate::Result;
use bytes::Bytes;
use futures::stream::BoxStream;
use std::fmt::Debug;
use std::sync::Arc;

#[async_trait::async_trait]
pub trait Storage: Debug + Send + Sync {
    async fn exists(&self, path: &str) -> Result<bool>;
    async fn metadata(&self, path: &str) -> Result<FileMetadata>;
    async fn read(&self, path: &str) -> Result<Bytes>;
    async fn reader(&self, path: &str) -> Result<Box<dyn FileRead>>;
    async fn write(&self, path: &str, bytes: Bytes) -> Result<()>;
    async fn writer(&self, path: &str) -> Result<Box<dyn FileWrite>>;
    async fn delete(&self, path: &str) -> Result<()>;
    async fn delete_prefix(&self, path: &str) -> Result<()>;
    async fn delete_stream(&self, paths: BoxStream<'static, String>) -> Result<()>;
    fn new_input(&self, path: &str) -> Result<InputFile>;
    fn new_output(&self, path: &str) -> Result<OutputFile>;
}

pub trait StorageFactory: Debug + Send + Sync {
    fn build(&self, _config: &StorageConfig) -> Result<Arc<dyn Storage>> {
        unimplemented!()
    }
}

#[derive(Clone, Debug)]
pub struct StorageConfig;

impl StorageConfig {
    pub fn new() -> StorageConfig {
        StorageConfig
    }

    pub fn with_prop(self, _key: String, _value: String) -> StorageConfig {
        self
    }

    pub fn with_props(self, _props: impl IntoIterator<Item = (String, String)>) -> StorageConfig {
        self
    }
}

#[derive(Debug)]
pub struct LocalFsStorageFactory;

impl StorageFactory for LocalFsStorageFactory {}

#[derive(Debug)]
pub struct MemoryStorageFactory;

impl StorageFactory for MemoryStorageFactory {}
