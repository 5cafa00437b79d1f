//! Retries of async closures, which borrow and change what they like: of compilers that have them, Rust 1.85 and later.
//! An older one would not read the file.

#[cfg(all(feature = "tokio", hikebox_async_closures))]
mod cases;
