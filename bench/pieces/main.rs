// How fast pieces are made and made anew, in GB/s of data: the proved code beside memcpy, plain Rust on words of eight bytes, and ISA-L.
// Each figure is the best of several rounds, in which all take turns, so that a busy machine harms all alike.
use std::hint::black_box;
use std::time::Instant;

extern "C" {
    fn pieces_encode(a: *const u8, an: usize, b: *const u8, bn: usize, c: *const u8, cn: usize, d: *const u8, dn: usize, p: *mut u8, pn: usize, q: *mut u8, qn: usize) -> bool;
    fn pieces_rebuild(p: usize, w: *const u8, wn: usize, q: usize, x: *const u8, xn: usize, r: usize, y: *const u8, yn: usize, s: usize, z: *const u8, zn: usize, wanted: usize, out: *mut u8, n: usize) -> bool;
    fn pieces_decode(p: usize, w: *const u8, wn: usize, q: usize, x: *const u8, xn: usize, r: usize, y: *const u8, yn: usize, s: usize, z: *const u8, zn: usize, a: *mut u8, an: usize, b: *mut u8, bn: usize, c: *mut u8, cn: usize, d: *mut u8, dn: usize) -> bool;
    fn ec_init_tables(k: i32, rows: i32, a: *mut u8, tables: *mut u8);
    fn ec_encode_data(len: i32, k: i32, rows: i32, tables: *mut u8, data: *mut *mut u8, coding: *mut *mut u8);
}

// Eight field elements times 2.
fn doubled(x: u64) -> u64 {
    let top = x & 0x8080_8080_8080_8080;
    ((x ^ top) << 1) ^ (((top << 1).wrapping_sub(top >> 7)) & 0x1d1d_1d1d_1d1d_1d1d)
}

fn word(s: &[u8], i: usize) -> u64 {
    u64::from_le_bytes(s[i..i + 8].try_into().unwrap())
}

// Plain Rust on words of eight bytes.
#[inline(never)]
fn plain_encode(a: &[u8], b: &[u8], c: &[u8], d: &[u8], p: &mut [u8], q: &mut [u8]) {
    let n = a.len();
    let (b, c, d, p, q) = (&b[..n], &c[..n], &d[..n], &mut p[..n], &mut q[..n]);
    let mut i = 0;
    while i + 8 <= n {
        let (w, x, y, z) = (word(a, i), word(b, i), word(c, i), word(d, i));
        p[i..i + 8].copy_from_slice(&(w ^ x ^ y ^ z).to_le_bytes());
        q[i..i + 8].copy_from_slice(&(doubled(doubled(doubled(z) ^ y) ^ x) ^ w).to_le_bytes());
        i += 8;
    }
}

// Data pieces 0 and 1 of 2, 3, P and Q: their sum and their weighted sum are what P and Q lack, and 244 is the inverse of 1 + 2.
#[inline(never)]
fn plain_decode(y: &[u8], z: &[u8], p: &[u8], q: &[u8], a: &mut [u8], b: &mut [u8], c: &mut [u8], d: &mut [u8]) {
    let n = y.len();
    let (z, p, q, a, b) = (&z[..n], &p[..n], &q[..n], &mut a[..n], &mut b[..n]);
    c.copy_from_slice(y);
    d.copy_from_slice(z);
    let mut i = 0;
    while i + 8 <= n {
        let (y, z) = (word(y, i), word(z, i));
        let sum = word(p, i) ^ y ^ z;
        let mixed = word(q, i) ^ doubled(doubled(doubled(z) ^ y)) ^ sum;
        let mut one = 0;
        for k in (0..8).rev() {
            one = doubled(one) ^ if 244 >> k & 1 == 1 { mixed } else { 0 };
        }
        a[i..i + 8].copy_from_slice(&(sum ^ one).to_le_bytes());
        b[i..i + 8].copy_from_slice(&one.to_le_bytes());
        i += 8;
    }
}

// Four pieces, each times its coefficient, by Horner's rule over the bits of the coefficients.
#[inline(never)]
fn plain_rebuild<const A: u8, const B: u8, const C: u8, const D: u8>(w: &[u8], x: &[u8], y: &[u8], z: &[u8], out: &mut [u8]) {
    let n = w.len();
    let (x, y, z, out) = (&x[..n], &y[..n], &z[..n], &mut out[..n]);
    let mut i = 0;
    while i + 8 <= n {
        let (w, x, y, z) = (word(w, i), word(x, i), word(y, i), word(z, i));
        let mut sum = 0;
        for k in (0..8).rev() {
            let bit = |c: u8, v: u64| if c >> k & 1 == 1 { v } else { 0 };
            sum = doubled(sum) ^ bit(A, w) ^ bit(B, x) ^ bit(C, y) ^ bit(D, z);
        }
        out[i..i + 8].copy_from_slice(&sum.to_le_bytes());
        i += 8;
    }
}

// The best rate of `work` over the rounds so far.
fn best(rate: &mut f64, data: usize, turns: usize, mut work: impl FnMut()) {
    // ISA-L leaves the upper halves of the vector registers in use, which slows down what comes after it to a third.
    if std::arch::is_x86_feature_detected!("avx") {
        unsafe { std::arch::asm!("vzeroupper") };
    }
    let start = Instant::now();
    for _ in 0..turns {
        work();
    }
    let now = (data * turns) as f64 / start.elapsed().as_secs_f64() / 1e9;
    *rate = rate.max(now);
}

fn tables(mut rows: Vec<u8>) -> Vec<u8> {
    let mut t = vec![0u8; 32 * rows.len()];
    unsafe { ec_init_tables(4, (rows.len() / 4) as i32, rows.as_mut_ptr(), t.as_mut_ptr()) };
    t
}

fn main() {
    println!("{:>6} {:<28} {:>8} {:>8} {:>8} {:>8} {:>10} {:>10}", "bytes", "work", "pieces", "plain", "ISA-L", "memcpy", "of plain", "of ISA-L");
    for n in [512usize, 4096] {
        let mut six: Vec<Vec<u8>> = (0..6).map(|k| (0..n).map(|i| ((i * 31 + k * 7) * 2654435761 >> 11) as u8).collect()).collect();
        let (data, parity) = six.split_at_mut(4);
        let (p, q) = parity.split_at_mut(1);
        plain_encode(&data[0], &data[1], &data[2], &data[3], &mut p[0], &mut q[0]);
        let mut out: Vec<Vec<u8>> = vec![vec![0; n]; 4];
        let mut copy = vec![0u8; 4 * n];
        let whole: Vec<u8> = six[..4].concat();
        let src: Vec<*mut u8> = six.iter().map(|s| s.as_ptr() as *mut u8).collect();
        let dst: Vec<*mut u8> = out.iter_mut().map(|s| s.as_mut_ptr()).collect();
        let mut encode_t = tables(vec![1, 1, 1, 1, 1, 2, 4, 8]);
        let mut decode_t = tables(vec![2, 6, 245, 244, 3, 7, 244, 244]);
        let mut rebuild_t = tables(vec![2, 6, 245, 244]);
        let mut from_q_t = tables(vec![71, 142, 2, 71]);
        let turns = 4_000_000 / (4 * n);
        let mut r = [[0f64; 4]; 5];
        for _ in 0..400 {
            let held = |ks: [usize; 4]| ks.map(|k| src[k]);
            best(&mut r[0][3], 4 * n, turns, || black_box(&mut copy).copy_from_slice(black_box(&whole)));
            for k in 1..5 {
                r[k][3] = r[0][3];
            }
            best(&mut r[0][0], 4 * n, turns, || unsafe {
                black_box(pieces_encode(src[0], n, src[1], n, src[2], n, src[3], n, dst[0], n, dst[1], n));
            });
            best(&mut r[0][1], 4 * n, turns, || unsafe {
                let s = |k: usize| std::slice::from_raw_parts(black_box(src[k]), n);
                plain_encode(s(0), s(1), s(2), s(3), std::slice::from_raw_parts_mut(dst[0], n), std::slice::from_raw_parts_mut(dst[1], n));
            });
            best(&mut r[0][2], 4 * n, turns, || unsafe {
                ec_encode_data(n as i32, 4, 2, encode_t.as_mut_ptr(), black_box(src.as_ptr() as *mut _), dst.as_ptr() as *mut _);
            });
            // data pieces 0 and 1 lost: all four data pieces; ISA-L is asked for the lost two alone
            let h = held([2, 3, 4, 5]);
            best(&mut r[1][0], 4 * n, turns, || unsafe {
                black_box(pieces_decode(2, h[0], n, 3, h[1], n, 4, h[2], n, 5, h[3], n, dst[0], n, dst[1], n, dst[2], n, dst[3], n));
            });
            best(&mut r[1][1], 4 * n, turns, || unsafe {
                let s = |k: usize| std::slice::from_raw_parts(black_box(h[k]), n);
                let d = |k: usize| std::slice::from_raw_parts_mut(dst[k], n);
                plain_decode(s(0), s(1), s(2), s(3), d(0), d(1), d(2), d(3));
            });
            best(&mut r[1][2], 4 * n, turns, || unsafe {
                ec_encode_data(n as i32, 4, 2, decode_t.as_mut_ptr(), black_box(h.as_ptr() as *mut _), dst.as_ptr() as *mut _);
            });
            // one of two lost data pieces
            best(&mut r[2][0], 4 * n, turns, || unsafe {
                black_box(pieces_rebuild(2, h[0], n, 3, h[1], n, 4, h[2], n, 5, h[3], n, 0, dst[0], n));
            });
            best(&mut r[2][1], 4 * n, turns, || unsafe {
                let s = |k: usize| std::slice::from_raw_parts(black_box(h[k]), n);
                plain_rebuild::<2, 6, 245, 244>(s(0), s(1), s(2), s(3), std::slice::from_raw_parts_mut(dst[0], n));
            });
            best(&mut r[2][2], 4 * n, turns, || unsafe {
                ec_encode_data(n as i32, 4, 1, rebuild_t.as_mut_ptr(), black_box(h.as_ptr() as *mut _), dst.as_ptr() as *mut _);
            });
            // one lost data piece, of the other three and P
            let h = held([0, 1, 3, 4]);
            best(&mut r[3][0], 4 * n, turns, || unsafe {
                black_box(pieces_rebuild(0, h[0], n, 1, h[1], n, 3, h[2], n, 4, h[3], n, 2, dst[0], n));
            });
            let mut sum_t = tables(vec![1, 1, 1, 1]);
            best(&mut r[3][1], 4 * n, turns, || unsafe {
                let s = |k: usize| std::slice::from_raw_parts(black_box(h[k]), n);
                plain_rebuild::<1, 1, 1, 1>(s(0), s(1), s(2), s(3), std::slice::from_raw_parts_mut(dst[0], n));
            });
            best(&mut r[3][2], 4 * n, turns, || unsafe {
                ec_encode_data(n as i32, 4, 1, sum_t.as_mut_ptr(), black_box(h.as_ptr() as *mut _), dst.as_ptr() as *mut _);
            });
            // the same of the other three and Q
            let h = held([0, 1, 3, 5]);
            best(&mut r[4][0], 4 * n, turns, || unsafe {
                black_box(pieces_rebuild(0, h[0], n, 1, h[1], n, 3, h[2], n, 5, h[3], n, 2, dst[0], n));
            });
            best(&mut r[4][1], 4 * n, turns, || unsafe {
                let s = |k: usize| std::slice::from_raw_parts(black_box(h[k]), n);
                plain_rebuild::<71, 142, 2, 71>(s(0), s(1), s(2), s(3), std::slice::from_raw_parts_mut(dst[0], n));
            });
            best(&mut r[4][2], 4 * n, turns, || unsafe {
                ec_encode_data(n as i32, 4, 1, from_q_t.as_mut_ptr(), black_box(h.as_ptr() as *mut _), dst.as_ptr() as *mut _);
            });
        }
        let names = ["encode", "decode, data 0 and 1 lost", "rebuild data 0, 1 lost too", "rebuild data 2 with P", "rebuild data 2 with Q"];
        for (k, name) in names.iter().enumerate() {
            let [ours, plain, isal, copy] = r[k];
            println!("{n:>6} {name:<28} {ours:>8.1} {plain:>8.1} {isal:>8.1} {copy:>8.1} {:>10.2} {:>10.2}", ours / plain, ours / isal);
        }
    }
}
