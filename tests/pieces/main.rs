// The proved code against a plain implementation that shares nothing with it: products by shifting, and inverses by elimination.
// Rows of random bytes of many lengths, each of the fifteen choices of four pieces, and what has to be refused.
extern "C" {
    fn pieces_encode(a: *const u8, an: usize, b: *const u8, bn: usize, c: *const u8, cn: usize, d: *const u8, dn: usize, p: *mut u8, pn: usize, q: *mut u8, qn: usize) -> bool;
    fn pieces_rebuild(p: usize, w: *const u8, wn: usize, q: usize, x: *const u8, xn: usize, r: usize, y: *const u8, yn: usize, s: usize, z: *const u8, zn: usize, wanted: usize, out: *mut u8, n: usize) -> bool;
    fn pieces_decode(p: usize, w: *const u8, wn: usize, q: usize, x: *const u8, xn: usize, r: usize, y: *const u8, yn: usize, s: usize, z: *const u8, zn: usize, a: *mut u8, an: usize, b: *mut u8, bn: usize, c: *mut u8, cn: usize, d: *mut u8, dn: usize) -> bool;
}

// Products of polynomials modulo x^8 + x^4 + x^3 + x^2 + 1, by long division.
fn product(a: u8, b: u8) -> u8 {
    let mut wide = 0u16;
    for k in 0..8 {
        if b >> k & 1 == 1 {
            wide ^= (a as u16) << k;
        }
    }
    for k in (8..15).rev() {
        if wide >> k & 1 == 1 {
            wide ^= 0x11d << (k - 8);
        }
    }
    wide as u8
}

fn inverse(a: u8) -> u8 {
    (1..=255).find(|b| product(a, *b) == 1).expect("a is not 0")
}

const GENERATOR: [[u8; 4]; 6] = [[1, 0, 0, 0], [0, 1, 0, 0], [0, 0, 1, 0], [0, 0, 0, 1], [1, 1, 1, 1], [1, 2, 4, 8]];

// The inverse of four rows, by elimination.
fn inverted(mut m: [[u8; 4]; 4]) -> [[u8; 4]; 4] {
    let mut out = [[1, 0, 0, 0], [0, 1, 0, 0], [0, 0, 1, 0], [0, 0, 0, 1]];
    for c in 0..4 {
        let pivot = (c..4).find(|r| m[*r][c] != 0).expect("any four rows can be inverted");
        m.swap(c, pivot);
        out.swap(c, pivot);
        let by = inverse(m[c][c]);
        for k in 0..4 {
            m[c][k] = product(by, m[c][k]);
            out[c][k] = product(by, out[c][k]);
        }
        for r in (0..4).filter(|r| *r != c) {
            let by = m[r][c];
            for k in 0..4 {
                m[r][k] ^= product(by, m[c][k]);
                out[r][k] ^= product(by, out[c][k]);
            }
        }
    }
    out
}

fn blend(row: [u8; 4], four: [&[u8]; 4]) -> Vec<u8> {
    (0..four[0].len()).map(|i| (0..4).fold(0, |sum, k| sum ^ product(row[k], four[k][i]))).collect()
}

// xorshift: the rows are the same on each run
struct Random(u64);

impl Random {
    fn next(&mut self) -> u64 {
        self.0 ^= self.0 << 13;
        self.0 ^= self.0 >> 7;
        self.0 ^= self.0 << 17;
        self.0
    }

    fn bytes(&mut self, n: usize) -> Vec<u8> {
        (0..n).map(|_| (self.next() >> 24) as u8).collect()
    }
}

struct Count {
    passed: u64,
    failed: u64,
}

impl Count {
    fn check(&mut self, ok: bool, what: impl Fn() -> String) {
        if ok {
            self.passed += 1;
        } else {
            self.failed += 1;
            eprintln!("failed: {}", what());
        }
    }
}

fn encode(d: &[Vec<u8>], p: &mut [u8], q: &mut [u8]) -> bool {
    unsafe { pieces_encode(d[0].as_ptr(), d[0].len(), d[1].as_ptr(), d[1].len(), d[2].as_ptr(), d[2].len(), d[3].as_ptr(), d[3].len(), p.as_mut_ptr(), p.len(), q.as_mut_ptr(), q.len()) }
}

fn rebuild(at: [usize; 4], h: [&[u8]; 4], wanted: usize, out: &mut [u8]) -> bool {
    unsafe { pieces_rebuild(at[0], h[0].as_ptr(), h[0].len(), at[1], h[1].as_ptr(), h[1].len(), at[2], h[2].as_ptr(), h[2].len(), at[3], h[3].as_ptr(), h[3].len(), wanted, out.as_mut_ptr(), out.len()) }
}

fn decode(at: [usize; 4], h: [&[u8]; 4], o: &mut [Vec<u8>]) -> bool {
    let [a, b, c, d] = o else { panic!("four pieces") };
    unsafe {
        pieces_decode(at[0], h[0].as_ptr(), h[0].len(), at[1], h[1].as_ptr(), h[1].len(), at[2], h[2].as_ptr(), h[2].len(), at[3], h[3].as_ptr(), h[3].len(),
            a.as_mut_ptr(), a.len(), b.as_mut_ptr(), b.len(), c.as_mut_ptr(), c.len(), d.as_mut_ptr(), d.len())
    }
}

// One row of random bytes: encoded, and given back and made anew of each choice of four.
fn row(random: &mut Random, n: usize, count: &mut Count) {
    let data: Vec<Vec<u8>> = (0..4).map(|_| random.bytes(n)).collect();
    let four = [&data[0][..], &data[1], &data[2], &data[3]];
    let mut six: Vec<Vec<u8>> = data.clone();
    let (mut p, mut q) = (random.bytes(n), random.bytes(n));
    count.check(encode(&data, &mut p, &mut q), || format!("encode takes {n} bytes"));
    count.check(p == blend(GENERATOR[4], four), || format!("P of {n} bytes"));
    count.check(q == blend(GENERATOR[5], four), || format!("Q of {n} bytes"));
    six.push(p);
    six.push(q);
    for lost in 0..36 {
        let (i, j) = (lost / 6, lost % 6);
        if i >= j {
            continue;
        }
        let at: Vec<usize> = (0..6).filter(|k| *k != i && *k != j).collect();
        let at = [at[0], at[1], at[2], at[3]];
        let held = at.map(|k| &six[k][..]);
        let mut out: Vec<Vec<u8>> = (0..4).map(|_| random.bytes(n)).collect();
        count.check(decode(at, held, &mut out) && out == data, || format!("decode {n} bytes of {at:?}"));
        let rows = inverted(at.map(|k| GENERATOR[k]));
        count.check((0..4).all(|k| blend(rows[k], held) == data[k]), || format!("the plain inverse at {at:?}"));
        for wanted in 0..6 {
            let mut out = random.bytes(n);
            count.check(rebuild(at, held, wanted, &mut out) && out == six[wanted], || format!("rebuild {wanted} of {at:?}, {n} bytes"));
        }
        // pieces that are no stripe's: what they give back, encoded, has them again
        let any: Vec<Vec<u8>> = (0..4).map(|_| random.bytes(n)).collect();
        let any4 = [&any[0][..], &any[1], &any[2], &any[3]];
        count.check(decode(at, any4, &mut out) && (0..4).all(|k| out[k] == blend(rows[k], any4)), || format!("decode any {n} bytes of {at:?}"));
    }
}

// What is refused leaves what it would have written.
fn refusals(random: &mut Random, count: &mut Count) {
    let data: Vec<Vec<u8>> = (0..4).map(|_| random.bytes(64)).collect();
    for short in 0..6 {
        let mut d = data.clone();
        let (mut p, mut q) = (random.bytes(64), random.bytes(64));
        match short {
            4 => p.truncate(63),
            5 => q.truncate(63),
            k => d[k].truncate(63),
        }
        let (p0, q0) = (p.clone(), q.clone());
        count.check(!encode(&d, &mut p, &mut q) && p == p0 && q == q0, || format!("encode refuses a short piece {short}"));
    }
    let h = [&data[0][..], &data[1], &data[2], &data[3]];
    for at in [[0, 1, 2, 2], [1, 0, 2, 3], [0, 2, 1, 3], [2, 3, 4, 6], [0, 0, 1, 2], [3, 4, 5, usize::MAX]] {
        let mut out: Vec<Vec<u8>> = (0..4).map(|_| random.bytes(64)).collect();
        let before = out.clone();
        count.check(!decode(at, h, &mut out) && out == before, || format!("decode refuses {at:?}"));
        count.check(!rebuild(at, h, 0, &mut out[0]) && out == before, || format!("rebuild refuses {at:?}"));
    }
    let mut out = random.bytes(64);
    let before = out.clone();
    for wanted in [6, 7, usize::MAX] {
        count.check(!rebuild([0, 1, 2, 3], h, wanted, &mut out) && out == before, || format!("rebuild refuses place {wanted}"));
    }
    for short in 0..4 {
        let mut s = h;
        s[short] = &h[short][..63];
        count.check(!rebuild([0, 1, 3, 5], s, 2, &mut out) && out == before, || format!("rebuild refuses a short piece {short}"));
        let mut four: Vec<Vec<u8>> = (0..4).map(|_| random.bytes(64)).collect();
        let kept = four.clone();
        count.check(!decode([0, 1, 3, 5], s, &mut four) && four == kept, || format!("decode refuses a short piece {short}"));
        four[short].truncate(10);
        let kept = four.clone();
        count.check(!decode([0, 1, 3, 5], h, &mut four) && four == kept, || format!("decode refuses a short output {short}"));
    }
}

fn main() {
    let mut random = Random(0x9e37_79b9_7f4a_7c15);
    let mut count = Count { passed: 0, failed: 0 };
    for n in (0..=130).chain([511, 512, 513, 1000, 4096]) {
        row(&mut random, n, &mut count);
    }
    for _ in 0..40 {
        row(&mut random, 512, &mut count);
    }
    refusals(&mut random, &mut count);
    let zeros = vec![vec![0u8; 512]; 4];
    let (mut p, mut q) = (random.bytes(512), random.bytes(512));
    count.check(encode(&zeros, &mut p, &mut q) && p == zeros[0] && q == zeros[0], || "zeros encode to zeros".into());
    println!("{} passed, {} failed", count.passed, count.failed);
    std::process::exit((count.failed > 0) as i32);
}
