//! Random inputs from a seed, good and broken.

use punelavoh::{column, GraphMaxima, Sample, SearchMaxima, Settings};

/// splitmix64
pub struct Random(pub u64);

impl Random {
    pub fn next(&mut self) -> u64 {
        self.0 = self.0.wrapping_add(0x9e37_79b9_7f4a_7c15);
        let mut z = self.0;
        z = (z ^ (z >> 30)).wrapping_mul(0xbf58_476d_1ce4_e5b9);
        z = (z ^ (z >> 27)).wrapping_mul(0x94d0_49bb_1331_11eb);
        z ^ (z >> 31)
    }

    /// Below `n`, which is not 0.
    pub fn below(&mut self, n: u32) -> u32 {
        (self.next() % u64::from(n)) as u32
    }

    pub fn once_in(&mut self, n: u32) -> bool {
        self.below(n) == 0
    }

    fn pick<T: Copy>(&mut self, from: &[T]) -> T {
        from[self.below(from.len() as u32) as usize]
    }
}

/// An input, owned.
pub struct Input {
    pub settings: Settings,
    pub reference: Vec<u8>,
    pub ends: Vec<u32>,
    pub bases: Vec<u8>,
    pub qualities: Vec<u8>,
    pub column: Vec<f64>,
}

impl Input {
    pub fn sample(&self) -> Sample<'_> {
        Sample { reference: &self.reference, ends: &self.ends, bases: &self.bases, qualities: &self.qualities }
    }

    /// A small sample whose reads differ from the reference here and there, with maxima that often suffice.
    pub fn healthy(random: &mut Random) -> Self {
        let k = 2 + random.below(6);
        let letters: &[u8] = if random.once_in(2) { b"ACGT" } else { b"AC" };
        let reference: Vec<u8> = (0..k + random.below(30)).map(|_| random.pick(letters)).collect();
        let mut input = Self { settings: settings(random, k), reference, ends: vec![], bases: vec![], qualities: vec![], column: vec![] };
        for _ in 0..random.below(7) {
            let from = random.below(input.reference.len() as u32) as usize;
            for at in from..input.reference.len() {
                let letter = if random.once_in(9) { random.pick(b"ACGTN.") } else { input.reference[at] };
                input.bases.push(letter);
                input.qualities.push(if random.once_in(30) { 2 } else { 40 });
            }
            input.ends.push(input.bases.len() as u32);
        }
        let places = random.pick(&[2, 5, 12, 64, 64]);
        input.column = column(places);
        input
    }

    /// One thing of it set to something odd.
    pub fn broken(mut self, random: &mut Random) -> Self {
        let odd = random.pick(&[0, 1, 2, 64, 65, 128, 129, 4097, 8193, 32769, 1 << 31, u32::MAX]);
        let s = &mut self.settings;
        match random.below(16) {
            0 => s.k = odd,
            1 => s.asked = odd,
            2 => s.graph.vertices = odd,
            3 => s.graph.edges = odd,
            4 => s.graph.nodes = odd,
            5 => s.search.path_edges = odd,
            6 => s.search.active = odd,
            7 => s.search.pushes = odd,
            8 => s.threshold = odd as i32,
            9 => self.reference.truncate(odd as usize % 5),
            10 => self.reference.push(odd as u8),
            11 => self.ends.push(odd),
            12 => self.ends.reverse(),
            13 => self.qualities.push(odd as u8),
            14 => self.bases.truncate(odd as usize % 3),
            _ => {
                let entry = random.pick(&[f64::NAN, f64::INFINITY, -0.0, -1.0, 16.5, 0.0]);
                let at = random.below(8) as usize;
                if let Some(place) = self.column.get_mut(at) {
                    *place = entry;
                }
                self.column.truncate(odd as usize);
            }
        }
        self
    }
}

fn settings(random: &mut Random, k: u32) -> Settings {
    let mut maximum = |n: u32| if random.once_in(5) { 1 + random.below(n) } else { n };
    let graph = GraphMaxima { vertices: 1 + maximum(150), edges: maximum(200), nodes: maximum(300) };
    let search = SearchMaxima { path_edges: maximum(60), active: maximum(12), pushes: maximum(120) };
    Settings { k, quality: 10, asked: random.below(9), threshold: random.below(6) as i32, recovery: random.once_in(2), graph, search }
}
