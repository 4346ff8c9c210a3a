//! What the measurements and the differential runs draw: numbers at random from a seed, placements, and pictures with their clues.

/// SplitMix64.
pub struct Random(pub u64);

impl Random {
    pub fn next(&mut self) -> u64 {
        self.0 = self.0.wrapping_add(0x9e37_79b9_7f4a_7c15);
        let a = (self.0 ^ (self.0 >> 30)).wrapping_mul(0xbf58_476d_1ce4_e5b9);
        let b = (a ^ (a >> 27)).wrapping_mul(0x94d0_49bb_1331_11eb);
        b ^ (b >> 31)
    }
    pub fn below(&mut self, n: usize) -> usize {
        (self.next() % n as u64) as usize
    }
    /// One of the colours; where there is but one, nothing is drawn.
    pub fn colour(&mut self, colours: &[u32]) -> u32 {
        if colours.len() == 1 {
            colours[0]
        } else {
            colours[self.below(colours.len())]
        }
    }
}

/// The least space of blocks.
pub fn space(sizes: &[u32], colours: &[u32]) -> usize {
    let gaps = colours.windows(2).filter(|w| w[0] == w[1]).count();
    sizes.iter().map(|&size| size as usize).sum::<usize>() + gaps
}

/// A placement at random, in which 1 is blank.
pub fn place(random: &mut Random, length: usize, sizes: &[u32], colours: &[u32]) -> Vec<u32> {
    let slack = length - space(sizes, colours);
    let mut cuts: Vec<usize> = (0..sizes.len()).map(|_| random.below(slack + 1)).collect();
    cuts.sort();
    let mut cells = vec![];
    let mut before = 0;
    for b in 0..sizes.len() {
        let gap = usize::from(b > 0 && colours[b - 1] == colours[b]);
        cells.extend(std::iter::repeat(1).take(cuts[b] - before + gap));
        before = cuts[b];
        cells.extend(std::iter::repeat(colours[b]).take(sizes[b] as usize));
    }
    cells.resize(length, 1);
    cells
}

/// A picture of discs of a radius of up to a sixth of the shorter side, until they cover half of it.
pub fn paint_blobs(random: &mut Random, width: usize, height: usize, colours: &[u32]) -> Vec<u32> {
    let mut picture = vec![1; width * height];
    while picture.iter().filter(|&&code| code != 1).count() * 2 < width * height {
        let (x, y) = (random.below(width), random.below(height));
        let radius = 1 + random.below((width.min(height) / 6).max(1));
        let code = random.colour(colours);
        for (at, cell) in picture.iter_mut().enumerate() {
            let (across, down) = (x.abs_diff(at % width), y.abs_diff(at / width));
            if across * across + down * down <= radius * radius {
                *cell = code;
            }
        }
    }
    picture
}

/// A picture of cells each by itself: so many of ten have a colour.
pub fn paint_noise(random: &mut Random, cells: usize, tenths: usize, colours: &[u32]) -> Vec<u32> {
    let mut cell = || {
        if random.below(10) < tenths {
            random.colour(colours)
        } else {
            1
        }
    };
    (0..cells).map(|_| cell()).collect()
}

/// The clues of one direction: a count for each line, then all blocks.
#[derive(Clone, Debug, Default)]
pub struct Clues {
    pub counts: Vec<u32>,
    pub sizes: Vec<u32>,
    pub colours: Vec<u32>,
}

impl Clues {
    /// Appends the clue of a line of a picture, in which 1 is blank.
    pub fn append(&mut self, line: impl Iterator<Item = u32>) {
        let before = self.sizes.len();
        let mut last = 1;
        for code in line {
            if code != 1 && code == last {
                *self.sizes.last_mut().unwrap() += 1;
            } else if code != 1 {
                self.sizes.push(1);
                self.colours.push(code);
            }
            last = code;
        }
        self.counts.push((self.sizes.len() - before) as u32);
    }
}

/// The clues of a picture's rows and of its columns.
pub fn clues(picture: &[u32], width: usize) -> (Clues, Clues) {
    let (mut rows, mut columns) = (Clues::default(), Clues::default());
    for row in picture.chunks(width) {
        rows.append(row.iter().copied());
    }
    for x in 0..width {
        columns.append(picture[x..].iter().step_by(width).copied());
    }
    (rows, columns)
}
