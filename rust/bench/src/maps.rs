//! The maps that are measured, the same in every run and on every machine: blobs with a wobble, painted one over the other.

/// How a map is made, for a side of 4,096 cells; a smaller map shows the same blobs smaller.
#[derive(Clone, Copy)]
pub struct Kind {
    pub seed: u64,
    pub blobs: usize,
    /// The mean radius of a blob, in cells.
    pub radius: i64,
    /// How far apart the rim's wobbles are, in cells.
    pub wobble: i64,
    /// How many colours there are, WHITE among them.
    pub colours: u64,
}

/// A pair of maps of one kind.
pub struct Pair {
    pub name: &'static str,
    pub kinds: [Kind; 2],
}

/// The pairs of several colours, from few leaves to many.
pub const PAIRS: [Pair; 3] = [
    Pair {
        name: "smooth",
        kinds: [
            Kind { seed: 1, blobs: 21, radius: 400, wobble: 96, colours: 8 },
            Kind { seed: 2, blobs: 20, radius: 400, wobble: 96, colours: 8 },
        ],
    },
    Pair {
        name: "middling",
        kinds: [
            Kind { seed: 3, blobs: 190, radius: 150, wobble: 48, colours: 8 },
            Kind { seed: 4, blobs: 129, radius: 150, wobble: 48, colours: 8 },
        ],
    },
    Pair {
        name: "ragged",
        kinds: [
            Kind { seed: 5, blobs: 1670, radius: 40, wobble: 6, colours: 8 },
            Kind { seed: 6, blobs: 700, radius: 50, wobble: 8, colours: 8 },
        ],
    },
];

/// The pair of black and white maps.
pub const BLACK_AND_WHITE: Pair = Pair {
    name: "black and white",
    kinds: [
        Kind { seed: 7, blobs: 1205, radius: 50, wobble: 8, colours: 2 },
        Kind { seed: 8, blobs: 483, radius: 60, wobble: 8, colours: 2 },
    ],
};

/// A number drawn from another: each bit of it depends on all.
fn mixed(number: u64) -> u64 {
    let mut bits = number.wrapping_add(0x9e37_79b9_7f4a_7c15);
    bits = (bits ^ bits >> 30).wrapping_mul(0xbf58_476d_1ce4_e5b9);
    bits = (bits ^ bits >> 27).wrapping_mul(0x94d0_49bb_1331_11eb);
    bits ^ bits >> 31
}

/// A number from 0 to 255 for a point of a lattice.
fn point(seed: u64, row: i64, column: i64) -> i64 {
    (mixed(seed ^ mixed((row as u64) << 32 ^ column as u64)) >> 56) as i64
}

/// A number from 0 to 255 that goes evenly from point to point of a lattice whose lines are so far apart.
fn between_points(seed: u64, apart: i64, row: i64, column: i64) -> i64 {
    let (top, left) = (row.div_euclid(apart), column.div_euclid(apart));
    let (down, right) = (row.rem_euclid(apart), column.rem_euclid(apart));
    let along = |row| point(seed, row, left) * (apart - right) + point(seed, row, left + 1) * right;
    (along(top) * (apart - down) + along(top + 1) * down) / (apart * apart)
}

/// A blob: its centre, its mean radius, the distance of its wobbles, its colour and its seed.
struct Blob {
    row: i64,
    column: i64,
    radius: i64,
    wobble: i64,
    colour: u8,
    seed: u64,
}

impl Blob {
    /// The blob of a number in a map of the size.
    fn drawn(kind: Kind, number: usize, size: u64) -> Blob {
        let seed = mixed(kind.seed << 32 | number as u64);
        let draw = |which, bound| (mixed(seed ^ which) % bound) as i64;
        let scaled = |length: i64| (length >> (12 - size)).max(1);
        Blob {
            row: scaled(draw(1, 4096)),
            column: scaled(draw(2, 4096)),
            radius: scaled(kind.radius / 2 + draw(3, kind.radius as u64)),
            wobble: scaled(kind.wobble),
            colour: draw(4, kind.colours) as u8,
            seed,
        }
    }

    /// Whether the blob covers a cell: the square of its radius there is from a half to three halves of the mean's.
    fn covers(&self, row: i64, column: i64) -> bool {
        let (down, right) = (row - self.row, column - self.column);
        let distance = (down * down + right * right) * 256;
        let square = self.radius * self.radius;
        let wobble = || between_points(self.seed, self.wobble, row, column);
        distance < square * 128 || distance < square * 384 && distance < square * (128 + wobble())
    }

    /// Paints the blob into a raster.
    fn paint(&self, side: i64, cells: &mut [u8]) {
        let near = |centre: i64| (centre - 2 * self.radius).max(0)..(centre + 2 * self.radius).min(side);
        for row in near(self.row) {
            for column in near(self.column) {
                if self.covers(row, column) {
                    cells[(row * side + column) as usize] = self.colour;
                }
            }
        }
    }
}

/// The raster of a map of the size.
pub fn raster(kind: Kind, size: u64) -> Vec<u8> {
    let mut cells = vec![0; 1 << (2 * size)];
    for number in 0..kind.blobs {
        Blob::drawn(kind, number, size).paint(1 << size, &mut cells);
    }
    cells
}
