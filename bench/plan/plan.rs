// The planner of jb in plain Rust, to be timed beside it: plan QUEUE prints the certificate.
// It reads only well-formed queue texts without data.
use std::collections::BTreeMap;
use std::io::Write;

#[derive(Clone, Copy)]
struct Touch {
    handle: usize,
    copy: bool,
}

#[derive(Clone, Copy)]
struct Owned {
    copies: u64,
    frees: u64,
}

#[derive(Clone, Copy)]
struct Priced {
    from: usize,
    price: u64,
}

#[derive(Clone, Copy)]
struct Stretch {
    from: usize,
    least: Option<Priced>,
}

/// The handles of a span.
const SPAN: usize = 8;

#[derive(Clone, Copy)]
struct Found {
    from: usize,
    price: u64,
    cost: u64,
}

impl Found {
    fn sum(self) -> u64 {
        self.price + self.cost
    }
}

fn better(best: Option<Found>, earlier: Option<Found>) -> Option<Found> {
    match (best, earlier) {
        (Some(best), Some(earlier)) if best.sum() < earlier.sum() => Some(best),
        (best, None) => best,
        (_, earlier) => earlier,
    }
}

#[derive(Clone, Copy)]
struct Span {
    from: usize,
    copies: u64,
    frees: u64,
    least: Option<Found>,
}

#[derive(Clone, Copy)]
struct Filled {
    per: u64,
    entries: u64,
    blocks: u64,
    room: u64,
}

impl Filled {
    fn with(self, more: u64) -> Filled {
        let entries = self.entries + more;
        if entries <= self.room {
            return Filled { entries, ..self };
        }
        let blocks = entries.div_ceil(self.per);
        Filled { per: self.per, entries, blocks, room: blocks * self.per }
    }
}

#[derive(Clone, Copy)]
struct Tally {
    copies: Filled,
    frees: Filled,
}

impl Tally {
    fn none(t: u64, r: u64) -> Tally {
        let none = |per| Filled { per, entries: 0, blocks: 0, room: 0 };
        Tally { copies: none(t), frees: none(r) }
    }

    fn plus(self, copies: u64, frees: u64) -> Tally {
        Tally { copies: self.copies.with(copies), frees: self.frees.with(frees) }
    }

    fn cost(self) -> u64 {
        1 + self.copies.entries + self.copies.blocks + self.frees.blocks
    }

    fn names_as(self, other: Tally) -> bool {
        self.copies.blocks == other.copies.blocks && self.frees.blocks == other.frees.blocks
    }
}

struct Touches {
    t: u64,
    r: u64,
    last: BTreeMap<u64, Touch>,
    owned: Vec<Owned>,
    stretches: Vec<Stretch>,
    spans: Vec<Option<Span>>,
}

impl Touches {
    fn add(&mut self, words: &[(u64, bool)], start: Option<u64>) {
        let handle = self.owned.len();
        let mut gained = Owned { copies: 0, frees: 0 };
        for &(home, copy) in words {
            if let Some(before) = self.last.insert(home, Touch { handle, copy }) {
                if let Some(span) = self.spans.get_mut(before.handle / SPAN) {
                    *span = None;
                }
                let owner = &mut self.owned[before.handle];
                if before.copy {
                    owner.copies -= 1;
                } else {
                    owner.frees -= 1;
                }
            }
            if copy {
                gained.copies += 1;
            } else {
                gained.frees += 1;
            }
        }
        self.owned.push(gained);
        let least = start.map(|price| Priced { from: handle, price });
        self.stretches.push(Stretch { from: handle, least });
        if self.stretches.len().is_multiple_of(SPAN) {
            self.spans.push(None);
        }
    }

    fn joined(&self, start: usize) -> Stretch {
        let mut joined = self.stretches[start];
        while joined.from > 0 {
            let owned = self.owned[joined.from - 1];
            if owned.copies > 0 || owned.frees > 0 {
                break;
            }
            let earlier = self.stretches[joined.from - 1];
            let least = match (earlier.least, joined.least) {
                (Some(first), Some(later)) if later.price < first.price => Some(later),
                (None, later) => later,
                (first, _) => first,
            };
            joined = Stretch { from: earlier.from, least };
        }
        joined
    }

    fn counted(&mut self, end: usize) -> Span {
        let (mut copies, mut frees, mut least, mut low) = (0, 0, None, end);
        while low > end - SPAN {
            let start = low - 1;
            copies += self.owned[start].copies;
            frees += self.owned[start].frees;
            let stretch = self.joined(start);
            self.stretches[start] = stretch;
            let found = |least: Priced| Found { from: least.from, price: least.price, cost: copies };
            least = better(least, stretch.least.map(found));
            low = stretch.from;
        }
        Span { from: low, copies, frees, least }
    }

    // The span of the handle before `low`, where it ends at most at `until`.
    fn span(&mut self, low: usize, until: usize) -> Option<Span> {
        let place = (low - 1) / SPAN;
        if place >= until / SPAN {
            return None;
        }
        if self.spans[place].is_none() {
            self.spans[place] = Some(self.counted((place + 1) * SPAN));
        }
        self.spans[place]
    }

    // The start, and the price of the end.
    fn best(&mut self, limit: u64) -> Option<(usize, u64)> {
        let mut best: Option<Found> = None;
        let mut tally = Tally::none(self.t, self.r);
        let mut low = self.owned.len();
        // The handles from `low` up to this one are idle.
        let mut until = low;
        while low > 0 {
            if let Some(span) = self.span(low, until) {
                let sum = tally.plus(span.copies, span.frees);
                if sum.names_as(tally) && sum.cost() <= limit {
                    let cost = tally.cost();
                    best = better(best, span.least.map(|f| Found { cost: f.cost + cost, ..f }));
                    tally = sum;
                    until = (low - 1) / SPAN * SPAN;
                    low = span.from;
                    continue;
                }
            }
            let start = low - 1;
            tally = tally.plus(self.owned[start].copies, self.owned[start].frees);
            let cost = tally.cost();
            if cost > limit {
                break;
            }
            let stretch = self.joined(start);
            self.stretches[start] = stretch;
            let found = |least: Priced| Found { from: least.from, price: least.price, cost };
            best = better(best, stretch.least.map(found));
            low = stretch.from;
            until = start;
        }
        best.map(|found| (found.from, found.sum()))
    }
}

fn words_of(line: &str) -> Vec<(u64, bool)> {
    let mut words: Vec<(u64, bool)> = Vec::new();
    for word in line.split(' ').skip(1) {
        let home = word[1..].parse().expect("a number");
        let copy = word.starts_with('w');
        match words.binary_search_by_key(&home, |entry| entry.0) {
            Ok(at) => words[at].1 = copy,
            Err(at) => words.insert(at, (home, copy)),
        }
    }
    words
}

fn main() {
    let path = std::env::args().nth(1).expect("plan QUEUE");
    let text = std::fs::read_to_string(path).expect("the file is read");
    let mut lines = text.lines();
    let bs: u64 = lines.next().and_then(|l| l[3..].parse().ok()).expect("bs N");
    let limit: u64 = lines.next().and_then(|l| l[6..].parse().ok()).expect("limit N");
    let queue: Vec<Vec<(u64, bool)>> = lines.map(words_of).collect();
    let mut touches = Touches {
        t: (bs - 28) / 8,
        r: (bs - 16) / 4,
        last: BTreeMap::new(),
        owned: Vec::new(),
        stretches: Vec::new(),
        spans: Vec::new(),
    };
    let mut prices = vec![Some(0)];
    let mut froms = vec![0];
    for (last, words) in queue.iter().enumerate() {
        touches.add(words, prices[last]);
        let best = touches.best(limit);
        prices.push(best.map(|(_, sum)| sum));
        froms.push(best.map_or(0, |(from, _)| from));
    }
    let mut out = String::from("prices");
    for price in &prices {
        match price {
            Some(price) => out.push_str(&format!(" {price}")),
            None => out.push_str(" none"),
        }
    }
    match prices[queue.len()] {
        Some(total) => {
            let mut bounds = vec![queue.len()];
            while bounds[bounds.len() - 1] > 0 {
                bounds.push(froms[bounds[bounds.len() - 1]]);
            }
            out.push_str("\ncut");
            for bound in bounds.iter().rev() {
                out.push_str(&format!(" {bound}"));
            }
            out.push_str(&format!("\ntotal {total}\n"));
        }
        None => out.push_str("\ncut none\n"),
    }
    std::io::stdout().write_all(out.as_bytes()).expect("the certificate is written");
}
