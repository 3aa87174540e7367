//! bench FILE ROUNDS: times the static library beside the Rust on one recording, each round both: `layout` beside `from_bytes`, `to_text` and
//! `to_tree` beside `from_bytes` and then `to_text` or `to_tree`, since our entries walk by themselves, and `clear_list` and `path`, which
//! the Rust has not; the path is that of the channel with the highest offset. Our memory is lent once,
//! large enough; what is timed is the call, which zeroes it first. Prints the least time of each, in microseconds. See bench.sh.
use mf4::block_layout::FileLayout;
use std::hint::black_box;
use std::time::Instant;

#[link(name = "block_layout_c", kind = "static")]
extern "C" {
    fn block_layout_c_layout(
        data: *const u8, data_len: usize, visited: *mut u64, visited_len: usize, blocks: *mut u64, blocks_len: usize,
        links: *mut u64, links_len: usize, gaps: *mut u64, gaps_len: usize, answer: *mut u64, answer_len: usize,
    );
    fn block_layout_c_text(
        data: *const u8, data_len: usize, visited: *mut u64, visited_len: usize, blocks: *mut u64, blocks_len: usize,
        links: *mut u64, links_len: usize, gaps: *mut u64, gaps_len: usize, out: *mut u8, out_len: usize,
        answer: *mut u64, answer_len: usize,
    );
    fn block_layout_c_tree(
        data: *const u8, data_len: usize, visited: *mut u64, visited_len: usize, blocks: *mut u64, blocks_len: usize,
        links: *mut u64, links_len: usize, gaps: *mut u64, gaps_len: usize, out: *mut u8, out_len: usize,
        answer: *mut u64, answer_len: usize,
    );
    fn block_layout_c_path(
        data: *const u8, data_len: usize, visited: *mut u64, visited_len: usize, blocks: *mut u64, blocks_len: usize,
        links: *mut u64, links_len: usize, gaps: *mut u64, gaps_len: usize, path: *mut u64, path_len: usize, offset: u64,
        answer: *mut u64, answer_len: usize,
    );
    fn block_layout_c_clear(
        data: *const u8, data_len: usize, visited: *mut u64, visited_len: usize, blocks: *mut u64, blocks_len: usize,
        links: *mut u64, links_len: usize, gaps: *mut u64, gaps_len: usize, scratch: *mut u64, scratch_len: usize,
        out: *mut u8, out_len: usize, answer: *mut u64, answer_len: usize,
    );
}

fn least(best: &mut f64, f: impl FnOnce()) {
    let t = Instant::now();
    f();
    *best = best.min(t.elapsed().as_secs_f64() * 1e6);
}

fn main() {
    let mut args = std::env::args().skip(1);
    let data = std::fs::read(args.next().expect("a file")).unwrap();
    let rounds: usize = args.next().map(|s| s.parse().unwrap()).unwrap_or(5);
    let rows = data.len() / 24 + 1;
    let (mut v, mut b) = (vec![0u64; rows], vec![0u64; 14 * rows]);
    let (mut l, mut g) = (vec![0u64; 2 * (data.len() / 8)], vec![0u64; 2 * rows]);
    let mut s = vec![0u64; 4 * rows + 4 * (data.len() / 8)];
    let whole = FileLayout::from_bytes(&data).expect("accepted");
    let mut o = vec![0u8; whole.to_text().len().max(whole.to_tree().len()).max(24 + 16 * rows)];
    let mut a = [0u64; 10];
    let (mut ours, mut rust) = ([f64::MAX; 5], [f64::MAX; 3]);
    macro_rules! call {
        ($f:ident $(, $t:ident)* $(; $x:expr)?) => {
            unsafe {
                $f(
                    data.as_ptr(), data.len(), v.as_mut_ptr(), v.len(), b.as_mut_ptr(), b.len(), l.as_mut_ptr(), l.len(), g.as_mut_ptr(), g.len(),
                    $($t.as_mut_ptr(), $t.len(),)* $($x,)? a.as_mut_ptr(), a.len(),
                )
            };
            if a[0] != 0 {
                println!("{} refused {} {} {} {}", stringify!($f), a[0], a[1], a[2], a[3]);
            }
        };
    }
    call!(block_layout_c_layout);
    let channel = b.chunks(14).take(a[5] as usize).filter(|row| row[4] == 5).last().map_or(64, |row| row[0]);
    let mut p = vec![0u64; a[5] as usize];
    let mut words = 0;
    for _ in 0..rounds {
        least(&mut ours[0], || { call!(block_layout_c_layout); });
        least(&mut ours[1], || { call!(block_layout_c_text, o); });
        least(&mut ours[2], || { call!(block_layout_c_tree, o); });
        least(&mut ours[4], || { call!(block_layout_c_path, p; channel); });
        words = a[8];
        least(&mut ours[3], || { call!(block_layout_c_clear, s, o); });
        least(&mut rust[0], || { black_box(FileLayout::from_bytes(black_box(&data)).unwrap()); });
        least(&mut rust[1], || { black_box(FileLayout::from_bytes(black_box(&data)).unwrap().to_text()); });
        least(&mut rust[2], || { black_box(FileLayout::from_bytes(black_box(&data)).unwrap().to_tree()); });
    }
    println!("bytes {} blocks {} links {} gaps {} rounds {rounds}", data.len(), a[5], a[6], a[7]);
    println!("layout {:.0} us, Rust {:.0} us", ours[0], rust[0]);
    println!("to_text {:.0} us, Rust {:.0} us", ours[1], rust[1]);
    println!("to_tree {:.0} us, Rust {:.0} us", ours[2], rust[2]);
    println!("clear_list {:.0} us", ours[3]);
    println!("path {:.0} us, {words} words", ours[4]);
}
