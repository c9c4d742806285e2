//! What a call may change, as it was before: so that a board with a fault can take back what it did.

use host::archive::ImagesMut;
use host::declared::{Record, UNITS};

pub struct Before {
    pub memory: Vec<u8>,
    pub images: [Vec<u8>; UNITS],
    pub table: Vec<Record>,
}

impl Before {
    pub fn of(memory: &[u8], images: &ImagesMut, table: &[Record]) -> Before {
        let images = images.each_ref().map(|image| image.to_vec());
        Before { memory: memory.to_vec(), images, table: table.to_vec() }
    }

    pub fn put_back(&self, memory: &mut [u8], images: &mut ImagesMut, table: &mut [Record]) {
        memory.copy_from_slice(&self.memory);
        for (image, before) in images.iter_mut().zip(&self.images) {
            image.copy_from_slice(before);
        }
        table.copy_from_slice(&self.table);
    }
}
