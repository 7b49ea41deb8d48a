//! What a picture has to show, by the words of the state and the rows of the file alone.

use generate::{table_of, File, Layout, Offer, Words, FREE, READY};
use pithread::Rights;

pub struct Thread {
    pub number: usize,
    pub held: Vec<usize>,
    pub offers: Vec<Offer>,
    pub node: i32,
    pub ready: bool,
    pub taken: bool,
}

pub struct Expected {
    pub ports: usize,
    pub threads: Vec<Thread>,
    /// The channels in use, and whether a collection frees each.
    pub channels: Vec<(usize, bool)>,
}

impl Expected {
    pub fn new(file: &File, state: &[u8]) -> Expected {
        let layout = Layout::new(file);
        let words = Words::new(state);
        let mut after = state.to_vec();
        let collected = reference::collect(&table_of(&file.rows), &mut after, &Rights::FULL.to_bytes(), 0);
        assert_eq!(collected.refusal, 0);
        let after = Words::new(&after);
        let threads = (0..64).filter(|number| words.thread(*number)[0] != FREE).map(|number| Thread {
            number,
            node: words.thread(number)[1],
            ready: words.thread(number)[0] == READY,
            taken: after.thread(number)[0] == FREE,
            held: words.held(&layout, number),
            offers: words.offers(&layout, number),
        });
        let used = (0..128).filter(|channel| words.channel(*channel)[0] != 0);
        let channels = used.map(|channel| (channel, after.channel(channel)[0] == 0));
        Expected { ports: layout.ports(), threads: threads.collect(), channels: channels.collect() }
    }

    pub fn name_of(&self, channel: usize) -> String {
        let kind = if channel < self.ports { "port" } else { "channel" };
        format!("{kind} {channel}")
    }
}
