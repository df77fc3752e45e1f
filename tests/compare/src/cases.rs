//! Prints what crates/power_up_cases must print, from the reference alone.
mod reference;
use reference::*;

const G: Geometry = Geometry { n: 3, s: 256 };

fn partition(version: u8, status: u8) -> Vec<u8> {
    let mut code = vec![0x33u8; 256];
    code[255] = version;
    let sheet = Sheet { version: version as u32, timestamp: 1_700_000_000, auth_type: 512, signature: [0x44; 64], hint: None };
    let mut p = vec![0xFFu8; 768];
    make_header(&mut p, &code, &sheet).unwrap();
    p[256..512].copy_from_slice(&code);
    p[767] = status;
    p
}

fn with_byte(mut p: Vec<u8>, at: usize, value: u8) -> Vec<u8> {
    p[at] = value;
    p
}

fn text(a: &Answer) -> String {
    let outcome = match a.outcome {
        Outcome::Refused(n, 0, 0) => format!("refused {n}"),
        Outcome::Refused(n, i, p) => format!("refused {n} for {i} at {p}"),
        Outcome::Cut => "cut".to_string(),
        Outcome::Run => "run".to_string(),
        Outcome::RunOnTest => "run on test".to_string(),
        Outcome::RunFallenBack => "run, fallen back".to_string(),
    };
    let reason = match a.reason {
        None => String::new(),
        Some((n, p)) => format!(", turned down with {n} at {p}"),
    };
    format!("{outcome} with {}{reason}", a.count)
}

fn flash_text(f: &Flash) -> String {
    let all = sha256(&[f.boot.as_slice(), &f.update, &f.swap].concat());
    format!(
        "; boot {:02x} update {:02x} flags {:02x} bytes {:02x}{:02x}{:02x}{:02x}",
        f.boot[767], f.update[767], f.update[766], all[0], all[1], all[2], all[3]
    )
}

fn run(f: &Flash, budgets: &[u64]) {
    let mut f = f.clone();
    let parts: Vec<String> = budgets.iter().map(|b| format!("{b} {}", text(&power_up(G, &mut f, *b)))).collect();
    println!("{}{}", parts.join("; "), flash_text(&f));
}

fn flash(boot: Vec<u8>, update: Vec<u8>) -> Flash {
    Flash { boot, update, swap: vec![0x5A; 256] }
}

fn all_budgets(f: &Flash) {
    for b in 0..26 {
        run(f, &[b]);
    }
    for first in 0..26 {
        for second in 0..26 {
            run(f, &[first, second]);
        }
    }
}

fn few(label: &str, boot: Vec<u8>, update: Vec<u8>) {
    println!("{label}");
    let f = flash(boot, update);
    for b in [0, 1, 100] {
        run(&f, &[b]);
    }
}

fn commands(label: &str, boot: Vec<u8>, update: Vec<u8>) {
    println!("{label}");
    let start = flash(boot, update);
    for (name, command) in [("arm", arm as fn(Geometry, &mut Flash) -> Result<u64, Refusal>), ("confirm", confirm)] {
        let mut f = start.clone();
        let answer = match command(G, &mut f) {
            Ok(n) => format!("done with {n}"),
            Err(r) => format!("refused {}", r.number),
        };
        println!("{name} {answer}{}", flash_text(&f));
    }
}

fn main() {
    println!("update");
    all_budgets(&flash(partition(7, 0x00), partition(8, 0x70)));
    println!("fallback");
    all_budgets(&flash(partition(7, 0x10), partition(6, 0xFF)));

    let boot = || partition(7, 0x00);
    let update = || partition(8, 0x70);
    few("equal versions", boot(), partition(7, 0x70));
    few("older version", boot(), partition(6, 0x70));
    few("one more", boot(), update());
    few("bad UPDATE", boot(), with_byte(update(), 300, 0));
    few("bad UPDATE header", boot(), with_byte(update(), 0, 0));
    few("bad BOOT", with_byte(boot(), 511, 0), update());
    few("both bad", with_byte(boot(), 511, 0), with_byte(update(), 300, 0));
    few("BOOT is NEW", partition(7, 0xFF), update());

    few("BOOT status 70", partition(7, 0x70), update());
    few("UPDATE status 10", boot(), partition(8, 0x10));
    few("flag byte 7F", boot(), with_byte(update(), 766, 0x7F));
    few("flag byte F7", boot(), with_byte(update(), 766, 0xF7));
    few("flag byte F1", boot(), with_byte(update(), 766, 0xF1));
    few("flag byte 00", boot(), with_byte(update(), 766, 0x00));
    few("TESTING and UPDATING, flags F", partition(7, 0x10), update());
    few("TESTING and UPDATING, flags 0", partition(7, 0x10), with_byte(update(), 766, 0x00));
    few("TESTING and UPDATING, flag byte F7", partition(7, 0x10), with_byte(update(), 766, 0xF7));
    few("plain", boot(), partition(8, 0xFF));
    few("plain, bad BOOT", with_byte(boot(), 511, 0), partition(8, 0xFF));
    few("fallback, bad UPDATE", partition(7, 0x10), with_byte(partition(6, 0xFF), 300, 0));
    few("fallback, bad BOOT", with_byte(partition(7, 0x10), 511, 0), partition(6, 0xFF));
    few("fallback, flag byte 7F", partition(7, 0x10), with_byte(partition(6, 0xFF), 766, 0x7F));

    commands("SUCCESS, NEW", partition(7, 0x00), partition(8, 0xFF));
    commands("NEW, NEW", partition(7, 0xFF), partition(8, 0xFF));
    commands("TESTING, NEW", partition(7, 0x10), partition(8, 0xFF));
    commands("SUCCESS, UPDATING", partition(7, 0x00), partition(8, 0x70));
    commands("TESTING, UPDATING", partition(7, 0x10), partition(8, 0x70));
    commands("UPDATING, NEW", partition(7, 0x70), partition(8, 0xFF));
    commands("TESTING, NEW, flag byte 7F", partition(7, 0x10), with_byte(partition(8, 0xFF), 766, 0x7F));
    commands("TESTING, NEW, flag byte F7", partition(7, 0x10), with_byte(partition(8, 0xFF), 766, 0xF7));
}
