//! One array on the heap, called as a caller without faults calls it.

use crate::pbm::{Answer, Bytes, Call};
use crate::record::{Record, RECORD_LEN};

pub struct Array(pub Bytes);

impl Array {
    /// A new array; record and images held other bytes before.
    pub fn format(n: u64, block_len: u64, stripes: u64) -> Array {
        let mut array = Array(Bytes {
            record: vec![0xff; RECORD_LEN],
            images: vec![0xff; (n * block_len * stripes) as usize],
            block: vec![0; block_len as usize],
        });
        let call = Call::Format {
            n,
            block_len,
            stripes,
        };
        assert_eq!(array.call(call), Answer::done(&[]));
        array
    }

    pub fn call(&mut self, call: Call) -> Answer {
        self.0.call(call)
    }

    pub fn record(&self) -> Record {
        Record::of(self.0.record[..].try_into().unwrap())
    }

    /// With images of the new disks after the old ones, which hold other bytes before.
    pub fn grow(&mut self, m: u64) -> Answer {
        let Record {
            n,
            stripes,
            block_len,
            ..
        } = self.record();
        let len = (n + m) * stripes * block_len;
        self.0.images.resize(len as usize, 0xff);
        self.call(Call::Grow { m })
    }

    pub fn advance(&mut self, k: u64) -> Answer {
        self.call(Call::Advance { k })
    }

    pub fn out(&mut self, disk: u64) -> Answer {
        self.call(Call::Out { disk })
    }

    pub fn begin(&mut self, disk: u64) -> Answer {
        self.call(Call::Begin { disk })
    }

    /// Continue, which is a word of Rust.
    pub fn proceed(&mut self, k: u64) -> Answer {
        self.call(Call::Continue { k })
    }

    pub fn locate(&mut self, block: u64) -> Answer {
        self.call(Call::Locate { block })
    }

    pub fn owner(&mut self, stripe: u64, disk: u64) -> Answer {
        self.call(Call::Owner { stripe, disk })
    }

    pub fn sweep(&mut self) -> Answer {
        self.call(Call::Sweep)
    }

    pub fn read(&mut self, block: u64) -> Vec<u8> {
        assert_eq!(self.call(Call::Read { block }), Answer::done(&[]));
        self.0.block.clone()
    }

    pub fn write(&mut self, block: u64, data: &[u8]) {
        self.0.block.copy_from_slice(data);
        assert_eq!(self.call(Call::Write { block }), Answer::done(&[]));
    }
}
