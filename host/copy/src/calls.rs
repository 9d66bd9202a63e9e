//! The eight calls once for each machine, its layout left out.

macro_rules! calls {
    ($layout:expr) => {
        use crate::answer::{Answer, Report};
        use crate::layout::Layout;
        use crate::machine;
        use crate::numbers::Numbers;

        const LAYOUT: Layout = $layout;

        pub fn set_up(buffer: &mut [u32], numbers: Numbers, page: &[u32]) -> Answer {
            machine::set_up(LAYOUT, buffer, numbers, page)
        }

        pub fn start_read(buffer: &mut [u32], client: u32) -> Answer {
            machine::start_read(LAYOUT, buffer, client)
        }

        pub fn start_write(buffer: &mut [u32], client: u32, page: &[u32]) -> Answer {
            machine::start_write(LAYOUT, buffer, client, page)
        }

        pub fn deliver(buffer: &mut [u32], slot: u32, page: &mut [u32]) -> Answer {
            machine::deliver(LAYOUT, buffer, slot, page)
        }

        pub fn gossip(buffer: &mut [u32], from: u32, to: u32) -> Answer {
            machine::gossip(LAYOUT, buffer, from, to)
        }

        pub fn tidy(buffer: &mut [u32], replica: u32) -> Answer {
            machine::tidy(LAYOUT, buffer, replica)
        }

        pub fn crash(buffer: &mut [u32], kind: u32, id: u32) -> Answer {
            machine::crash(LAYOUT, buffer, kind, id)
        }

        pub fn report(buffer: &mut [u32]) -> Report {
            machine::report(LAYOUT, buffer)
        }
    };
}

/// 4,992 words, with counts.
pub mod base {
    calls!(Layout::Base);
}

/// 5,036 words, in columns.
pub mod wide {
    calls!(Layout::Wide);
}
