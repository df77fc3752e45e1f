//! Mending on bytes: exchanges that lose power at every operation and in every way, whose flags are spoiled, or not, and mended; and from
//! there demand 3 once more, up to the finish, for the images that the mended flags show. Exchanges of images whose digest's tag and whose
//! end stand anywhere in a block and beside the ends of sectors are mended after every operation.
use crate::call::{Call, Lent, LentFlash};
use crate::cuts::{moves, Job, Stage};
use crate::inputs::*;
use crate::layouts::{Filling, Image, Order};
use crate::random::Random;
use crate::reference::*;
use crate::report::Compare;

/// What was tried.
#[derive(Default)]
pub struct Mends {
    pub exchanges: u64,
    pub mended: u64,
}

/// An exchange to mend: the sectors in which the old images end, BOOT's first.
struct Exchange {
    g: Geometry,
    ends: (usize, usize),
    job: Job,
}

/// The size of a firmware whose last byte is in this sector: its first byte, its last, or another.
fn size_ending_in(r: &mut Random, g: Geometry, sector: usize) -> u32 {
    let (first, last) = ((sector * g.s).max(HEADER), (sector + 1) * g.s - 1);
    let any = r.within(first, last);
    (r.pick(&[first, last, any, any]) + 1 - HEADER) as u32
}

impl Exchange {
    fn new(c: &Compare, r: &mut Random, g: Geometry, ends: (usize, usize), boot: u8) -> Self {
        let (boot_size, update_size) = (size_ending_in(r, g, ends.0), size_ending_in(r, g, ends.1));
        let version = r.below(1000) as u32;
        let mut f = Flash {
            boot: partition_of(r, g, version, boot_size, 0),
            update: partition_of(r, g, version + 1, update_size, 0),
            swap: r.bytes(g.s),
        };
        let erased = r.one_in(2);
        set_trailers(g, &mut f, boot, UPDATING, erased);
        Exchange { g, ends, job: Job::new(c, g, f, false) }
    }

    /// The stages that one loss of power leaves, at every operation and in every way; at times with another before.
    fn stages(&self, c: &mut Compare, r: &mut Random) -> Vec<Stage> {
        let mut all = self.job.every_loss(c, r, &self.job.start());
        let first = &all[r.below(all.len())];
        if r.one_in(3) && !self.job.finished(&first.flash) {
            all = self.job.every_loss(c, r, &first.clone());
        }
        all
    }

    /// Spoils the flags at this stage and mends them, and goes on from there.
    fn mend(&self, c: &mut Compare, r: &mut Random, at: &Stage, tried: &mut Mends) {
        let g = self.g;
        let mut spoiled = at.flash.clone();
        spoil_flags(r, g, &mut spoiled);
        // Between two sectors SWAP holds nothing that is needed.
        let between = at.flash.flags(g).iter().all(|flag| *flag == 0xF || *flag == 0);
        if between && r.one_in(3) {
            spoiled.swap = r.bytes(g.s);
        }
        let (number, row, mended) = call(c, g, &spoiled);
        let due = at.flash.update.last() == Some(&UPDATING) && at.flash.boot.last() != Some(&TESTING);
        if number != if due { 0 } else { 14 } {
            c.fail(&format!("an exchange that lost power is answered {number}"), &[&asked(g, &spoiled)]);
        }
        if number != 0 {
            return;
        }
        tried.mended += 1;
        self.note(c, &at.flash, &spoiled, &row);
        if !self.shows_images(&mended) {
            c.fail("the mark shows other images than the exchange began with", &[&asked(g, &spoiled)]);
        }
        if call(c, g, &mended) != (0, vec![row[0], row[1], 0], mended.clone()) {
            c.fail("mended flags are mended otherwise", &[&asked(g, &spoiled)]);
        }
        let job = Job::mended(c, g, mended);
        job.finish(c, &job.start());
        job.any_list(c, r);
    }

    /// Whether the images that the flags show are those that the exchange began with, up to their ends.
    fn shows_images(&self, mended: &Flash) -> bool {
        let start = self.job.start().flash;
        let (boot, update) = old_images(self.g, mended, &mended.flags(self.g));
        [(&start.boot, &boot), (&start.update, &update)].iter().all(|(old, shown)| {
            let end = read_header(old).map_or(old.len(), |h| HEADER + h.size as usize);
            old[..end] == shown[..end]
        })
    }

    /// Where the mark is beside the stage that the exchange had come to: never behind it, since that one fits.
    fn note(&self, c: &mut Compare, true_one: &Flash, spoiled: &Flash, row: &[u64]) {
        let behind: usize = true_one.flags(self.g).iter().map(|flag| moves(*flag)).sum();
        let found = if row[1] == 0 { 3 * self.g.m() } else { 3 * row[0] as usize + moves(row[1] as u8) };
        if found > behind {
            c.fail("the mark is behind the one that the exchange had come to", &[&asked(self.g, spoiled)]);
        }
        if found == behind && row[1] == 0 {
            c.tally.note("mended: all 0, at the end of an exchange");
        } else if found == behind {
            c.tally.note("mended: where the exchange had come to");
        } else if found + 1 == behind {
            c.tally.note("mended: one move back");
        } else if self.ends.0.max(self.ends.1) < behind / 3 && found / 3 < behind / 3 {
            c.tally.note("mended: in an earlier sector, images that end before it");
        }
        let flags = spoiled.flags(self.g);
        if well_formed(&flags) && flags.iter().map(|flag| moves(*flag)).sum::<usize>() != found {
            c.tally.note("mended: flags that were well formed, but of another mark");
        }
        let half = self.g.n * self.g.s - 2 - self.g.m() / 2;
        if self.g.m() % 2 == 1 && spoiled.update[half] >> 4 != 0xF {
            c.tally.note("mended: beside an unused half byte that is not F");
        }
    }
}

fn asked(g: Geometry, f: &Flash) -> Call {
    Call::Mend { g, flash: LentFlash::new(f), numbers: Lent::new(&[u64::MAX; 3]) }
}

/// The answer, the row and the flash, equal on both sides.
fn call(c: &mut Compare, g: Geometry, f: &Flash) -> (u32, Vec<u64>, Flash) {
    match c.call(asked(g, f)) {
        (number, Call::Mend { flash, numbers, .. }) => (number, numbers.to_vec(), flash.flash()),
        _ => unreachable!(),
    }
}

/// Up to five firmware sectors, images that end in each of them, and every loss of power.
fn every_stage(c: &mut Compare, r: &mut Random, tried: &mut Mends) {
    for m in 1..=5 {
        for s in if m == 1 { [512, 768] } else { [256, 512] } {
            let g = Geometry { n: m + 1, s };
            // A header fills a sector of 256 bytes.
            let first = usize::from(s == HEADER);
            for (boot_end, update_end) in (first..m).flat_map(|b| (first..m).map(move |u| (b, u))) {
                for boot in [NEW, SUCCESS] {
                    let exchange = Exchange::new(c, r, g, (boot_end, update_end), boot);
                    tried.exchanges += 1;
                    for stage in exchange.stages(c, r) {
                        exchange.mend(c, r, &stage, tried);
                    }
                }
            }
        }
        println!(
            "mending with up to {m} firmware sectors: {} exchanges, {} mended, no difference",
            tried.exchanges, tried.mended
        );
    }
}

// ---- where the blocks lie

/// Places of a digest's tag: at the front and at the end of a block, within it, and where a block has no room left for the length.
const PLACES: [usize; 18] = [8, 9, 28, 55, 56, 63, 64, 65, 102, 119, 120, 127, 128, 129, 191, 192, 193, 218];

/// Sizes of a firmware whose digest's tag is at this place: around the end of each sector, around the end of a block of the firmware, and
/// so that what is covered ends around the end of a block, or where its length no longer fits.
fn sizes_around(r: &mut Random, g: Geometry, at: usize) -> Vec<usize> {
    let block = 64 * r.within(1, (g.m() * g.s - HEADER) / 64);
    let ends = (1..=g.m()).flat_map(|i| [i * g.s - 1, i * g.s, i * g.s + 1]);
    let mut all: Vec<usize> = ends.filter(|end| *end > HEADER).map(|end| end - HEADER).collect();
    all.extend([1, block - 1, block, block + 1]);
    all.extend([0, 1, 55, 56, 63].iter().map(|last| block + last - at % 64));
    all.retain(|size| *size >= 1 && *size <= g.m() * g.s - HEADER);
    all
}

/// An image with its digest's tag at this place, behind any of the other tags that can stand there.
fn image_at(r: &mut Random, at: usize, version: u32, size: usize) -> Image {
    loop {
        let mut kinds = TYPES[..5 + r.below(2)].to_vec();
        for i in (1..kinds.len()).rev() {
            kinds.swap(i, r.below(i + 1));
        }
        let order = Order(kinds);
        if order.places().0 <= at && at <= order.places().1 {
            return Image::new(r, &order, at, Filling::Both, version, size);
        }
    }
}

/// Where what the digest covers ends, and the digest's tag.
fn note_blocks(c: &mut Compare, g: Geometry, image: &Image) {
    let (at, length) = (image.at, image.at + image.end - HEADER);
    let first = (length - 1) / 64 * 64;
    // The sector of a byte of what is covered.
    let sector = |place: usize| if place < at { 0 } else { (HEADER + place - at) / g.s };
    let header = if first < at { " the header and behind it, in" } else { "" };
    let sectors = if sector(first) == sector(length - 1) { "one sector" } else { "two sectors" };
    c.tally.note(&format!("mended: an image whose last block lies in{header} {sectors}"));
    c.tally.note(match at % 64 {
        0 => "mended: an image with its digest's tag at the front of a block",
        _ => "mended: an image with its digest's tag within a block",
    });
    c.tally.note(match length % 64 {
        0 => "mended: an image that fills its last block",
        1..=55 => "mended: an image whose last block has room for its length",
        _ => "mended: an image whose last block has no room for its length",
    });
    if image.end % g.s == 0 {
        c.tally.note("mended: an image that ends with its sector");
    }
}

/// An exchange of two images that loses its flags after each operation. It is mended, and the images are those that it began with.
fn mend_after_each(c: &mut Compare, r: &mut Random, g: Geometry, boot: &Image, update: &Image, tried: &mut Mends) {
    let mut f = Flash { boot: boot.partition(r, g), update: update.partition(r, g), swap: r.bytes(g.s) };
    let (status, erased) = (r.pick(&[NEW, SUCCESS]), r.one_in(2));
    set_trailers(g, &mut f, status, UPDATING, erased);
    tried.exchanges += 1;
    for _ in 0..=9 * g.m() {
        let mut lost = f.clone();
        spoil_flags(r, g, &mut lost);
        let (number, _, mended) = call(c, g, &lost);
        if number != 0 {
            c.fail(&format!("an exchange that lost its flags is answered {number}"), &[&asked(g, &lost)]);
        }
        let (old_boot, old_update) = old_images(g, &mended, &mended.flags(g));
        if old_boot[..boot.end] != boot.bytes || old_update[..update.end] != update.bytes {
            c.fail("the mark shows other images than the exchange began with", &[&asked(g, &lost)]);
        }
        tried.mended += 1;
        note_blocks(c, g, boot);
        note_blocks(c, g, update);
        power_up(g, &mut f, 1);
    }
}

/// Every place and size above, as UPDATE's and as BOOT's, beside any other: in sectors of 256, of which the first is the header alone, and
/// in larger ones.
fn every_block(c: &mut Compare, r: &mut Random, tried: &mut Mends) {
    for (m, s) in [(3, 256), (2, 512), (2, 768), (2, 1024)] {
        let g = Geometry { n: m + 1, s };
        for at in PLACES {
            for size in sizes_around(r, g, at) {
                let other = r.pick(&PLACES);
                let sizes = sizes_around(r, g, other);
                let mut pair = [(at, size), (other, sizes[r.below(sizes.len())])];
                if r.one_in(2) {
                    pair.swap(0, 1);
                }
                let version = r.below(1000) as u32;
                let boot = image_at(r, pair[0].0, version, pair[0].1);
                let update = image_at(r, pair[1].0, version + 1, pair[1].1);
                mend_after_each(c, r, g, &boot, &update, tried);
            }
        }
    }
    println!("digests that end anywhere in a block: {} exchanges, {} mended, no difference", tried.exchanges, tried.mended);
}

// ---- refusals, and the most sectors

/// A flash in the middle of an exchange, with spoiled flags.
fn spoiled(c: &mut Compare, r: &mut Random) -> (Exchange, Flash) {
    let m = r.within(2, 5);
    let g = Geometry { n: m + 1, s: 512 };
    let ends = (r.below(m), r.below(m));
    let boot = r.pick(&[NEW, SUCCESS]);
    let exchange = Exchange::new(c, r, g, ends, boot);
    let mut f = exchange.job.start().flash;
    power_up(g, &mut f, r.below(9 * m + 1) as u64);
    spoil_flags(r, g, &mut f);
    (exchange, f)
}

/// Every status byte in BOOT and in UPDATE, and every pair that they may hold; lengths and geometries outside the rules; images that are
/// damaged, and an update that is not newer.
fn refusals(c: &mut Compare, r: &mut Random) {
    for byte in 0..=255 {
        for area in [Area::Boot, Area::Update] {
            let (exchange, mut f) = spoiled(c, r);
            f.perform(exchange.g, Operation::Status(area, byte));
            call(c, exchange.g, &f);
        }
    }
    for (boot, update) in [NEW, TESTING, SUCCESS].iter().flat_map(|b| [(*b, NEW), (*b, UPDATING)]) {
        let (exchange, mut f) = spoiled(c, r);
        f.perform(exchange.g, Operation::Status(Area::Boot, boot));
        f.perform(exchange.g, Operation::Status(Area::Update, update));
        let number = call(c, exchange.g, &f).0;
        if number != if update == NEW || boot == TESTING { 14 } else { 0 } {
            c.fail(&format!("these statuses are answered {number}"), &[&asked(exchange.g, &f)]);
        }
    }
    for _ in 0..200 {
        let (exchange, f) = spoiled(c, r);
        let g = exchange.g;
        let (mut damaged, mut not_newer, mut other) = (f.clone(), f.clone(), f);
        let (area, i) = (r.pick(&[Area::Boot, Area::Update]), r.below(g.m()));
        let mut sector = damaged.sector(g, area, i).to_vec();
        damage(r, &mut sector, g.s);
        damaged.set_sector(g, area, i, &sector);
        call(c, g, &damaged);
        // An armed update that no power-up would take: with equal versions no mark fits. An older one stands there as if the newer image
        // in BOOT were the update, and all of it exchanged: a mark fits.
        let (version, older) = (r.within(1, 1000) as u32, r.below(2) as u32);
        let images = (partition(r, g, version, 0), partition(r, g, version - older, 0));
        for i in 0..g.m() {
            let at = i * g.s..(i + 1) * g.s;
            not_newer.set_sector(g, Area::Boot, i, &images.0[at.clone()]);
            not_newer.set_sector(g, Area::Update, i, &images.1[at]);
        }
        not_newer.swap = r.bytes(g.s);
        if call(c, g, &not_newer).0 != if older == 1 { 0 } else { 17 } {
            c.fail("an update that is not newer is answered otherwise", &[&asked(g, &not_newer)]);
        }
        call(c, other_geometry(r, g), &other);
        let buffer = match r.below(3) {
            0 => &mut other.boot,
            1 => &mut other.update,
            _ => &mut other.swap,
        };
        let right = buffer.len();
        buffer.resize(r.pick(&[0, right - 1, right + 1, right + 256]), 0xFF);
        if call(c, g, &other).0 != 1 {
            c.fail("a wrong length is taken", &[&asked(g, &other)]);
        }
    }
}

/// The most sectors, 510 with a trailer that fills its sector and 511: images of a few sectors, and such as fill all of them, which a
/// loss of power leaves exchanged.
fn most_sectors(c: &mut Compare, r: &mut Random, tried: &mut Mends) {
    for (n, s) in [(511, 256), (512, 512)] {
        let g = Geometry { n, s };
        for (ends, budget) in [((3, 17), 9 * 30), ((20, 5), 9 * 11 + 4), ((g.m() - 1, g.m() - 1), 9 * 40 + 7)] {
            let exchange = Exchange::new(c, r, g, ends, SUCCESS);
            tried.exchanges += 1;
            let mut at = exchange.job.start();
            power_up(g, &mut at.flash, budget);
            exchange.mend(c, r, &at, tried);
        }
    }
    let (n, s) = (512, 256);
    let flash = Flash { boot: r.bytes(n * s), update: r.bytes(n * s), swap: r.bytes(s) };
    call(c, Geometry { n, s }, &flash);
}

/// Everything above.
pub fn try_mends(c: &mut Compare, r: &mut Random) -> Mends {
    let mut tried = Mends::default();
    every_stage(c, r, &mut tried);
    every_block(c, r, &mut tried);
    refusals(c, r);
    most_sectors(c, r, &mut tried);
    println!("{} exchanges, {} mended, no difference", tried.exchanges, tried.mended);
    tried
}
