//! Stands in for the crate embedded-storage-async: the traits that sequential-storage asks of a flash, and no more.
#![allow(async_fn_in_trait)]

pub mod nor_flash {
    use core::fmt::Debug;

    /// What a flash's error says of itself, for code that serves any flash.
    #[derive(Clone, Copy, Debug, PartialEq, Eq)]
    pub enum NorFlashErrorKind {
        NotAligned,
        OutOfBounds,
        Other,
    }

    pub trait NorFlashError: Debug {
        fn kind(&self) -> NorFlashErrorKind;
    }

    pub trait ErrorType {
        type Error: NorFlashError;
    }

    pub trait ReadNorFlash: ErrorType {
        const READ_SIZE: usize;

        async fn read(&mut self, offset: u32, bytes: &mut [u8]) -> Result<(), Self::Error>;

        fn capacity(&self) -> usize;
    }

    pub trait NorFlash: ReadNorFlash {
        const WRITE_SIZE: usize;
        const ERASE_SIZE: usize;

        /// Erases from `from` up to `to`, which is not part of it.
        async fn erase(&mut self, from: u32, to: u32) -> Result<(), Self::Error>;

        async fn write(&mut self, offset: u32, bytes: &[u8]) -> Result<(), Self::Error>;
    }

    /// A flash whose words can be written again without an erase; the bits are then ANDed.
    pub trait MultiwriteNorFlash: NorFlash {}

    impl<T: ErrorType> ErrorType for &mut T {
        type Error = T::Error;
    }

    impl<T: ReadNorFlash> ReadNorFlash for &mut T {
        const READ_SIZE: usize = T::READ_SIZE;

        async fn read(&mut self, offset: u32, bytes: &mut [u8]) -> Result<(), Self::Error> {
            T::read(self, offset, bytes).await
        }

        fn capacity(&self) -> usize {
            T::capacity(self)
        }
    }

    impl<T: NorFlash> NorFlash for &mut T {
        const WRITE_SIZE: usize = T::WRITE_SIZE;
        const ERASE_SIZE: usize = T::ERASE_SIZE;

        async fn erase(&mut self, from: u32, to: u32) -> Result<(), Self::Error> {
            T::erase(self, from, to).await
        }

        async fn write(&mut self, offset: u32, bytes: &[u8]) -> Result<(), Self::Error> {
            T::write(self, offset, bytes).await
        }
    }

    impl<T: MultiwriteNorFlash> MultiwriteNorFlash for &mut T {}
}
