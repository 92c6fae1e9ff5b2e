//! Stands for the repository's own crate network, which can't be had: it records what would be
//! sent, and receives nothing.

use crate::recorder::{self, Seen};
use async_trait::async_trait;
use bytes::Bytes;
use futures::Sink;
use std::error::Error;
use std::io;
use std::net::SocketAddr;
use std::pin::Pin;
use std::task::{Context, Poll};

pub struct CancelHandler;

impl Drop for CancelHandler {
    fn drop(&mut self) {
        recorder::push(Seen::Dropped)
    }
}

pub struct ReliableSender;

impl ReliableSender {
    #[allow(clippy::new_without_default)]
    pub fn new() -> Self {
        ReliableSender
    }

    pub async fn send(&mut self, address: SocketAddr, data: Bytes) -> CancelHandler {
        recorder::push(Seen::Send(address, data.to_vec()));
        CancelHandler
    }

    pub async fn broadcast(
        &mut self,
        addresses: Vec<SocketAddr>,
        data: Bytes,
    ) -> Vec<CancelHandler> {
        let handlers = addresses.iter().map(|_| CancelHandler).collect();
        recorder::push(Seen::Broadcast(addresses, data.to_vec()));
        handlers
    }
}

pub struct SimpleSender;

impl SimpleSender {
    #[allow(clippy::new_without_default)]
    pub fn new() -> Self {
        SimpleSender
    }

    pub async fn send(&mut self, address: SocketAddr, data: Bytes) {
        recorder::push(Seen::Send(address, data.to_vec()))
    }

    pub async fn broadcast(&mut self, addresses: Vec<SocketAddr>, data: Bytes) {
        recorder::push(Seen::Broadcast(addresses, data.to_vec()))
    }

    pub async fn lucky_broadcast(
        &mut self,
        addresses: Vec<SocketAddr>,
        data: Bytes,
        _nodes: usize,
    ) {
        recorder::push(Seen::Broadcast(addresses, data.to_vec()))
    }
}

/// Where a receiver writes its replies.
pub struct Writer;

impl Sink<Bytes> for Writer {
    type Error = io::Error;

    fn poll_ready(self: Pin<&mut Self>, _: &mut Context<'_>) -> Poll<io::Result<()>> {
        Poll::Ready(Ok(()))
    }

    fn start_send(self: Pin<&mut Self>, _: Bytes) -> io::Result<()> {
        Ok(())
    }

    fn poll_flush(self: Pin<&mut Self>, _: &mut Context<'_>) -> Poll<io::Result<()>> {
        Poll::Ready(Ok(()))
    }

    fn poll_close(self: Pin<&mut Self>, _: &mut Context<'_>) -> Poll<io::Result<()>> {
        Poll::Ready(Ok(()))
    }
}

#[async_trait]
pub trait MessageHandler: Clone + Send + Sync + 'static {
    async fn dispatch(&self, writer: &mut Writer, message: Bytes) -> Result<(), Box<dyn Error>>;
}

pub struct Receiver;

impl Receiver {
    pub fn spawn<Handler: MessageHandler>(_address: SocketAddr, _handler: Handler) {}
}
