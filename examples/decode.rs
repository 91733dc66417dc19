//! Decodes the word of 32 hexadecimal digits in the argument, as a `u128`: examples/run rust WORD

/// The fields of a word: `cheri_cap_fields` of the header.
#[repr(C)]
struct Fields {
    address: u64,
    otype: u32,
    perms: u16,
    t: u16,
    b: u16,
    reserved: u8,
    flag: bool,
    ie: bool,
}

/// The bounds and the exponent of a word: `cheri_cap_bounds` of the header.
#[repr(C)]
struct Bounds {
    base: u64,
    top_high: u64,
    top_low: u64,
    exponent: u8,
}

// SAFETY: these are the header's declarations, in Rust. Each function accepts every value, and has no state.
unsafe extern "C" {
    safe fn cheri_cap_unpack(high: u64, low: u64) -> Fields;
    safe fn cheri_cap_decode(high: u64, low: u64) -> Bounds;
    safe fn cheri_cap_is_canonical(high: u64, low: u64) -> bool;
}

fn main() {
    let text = std::env::args().nth(1).unwrap_or_default();
    let Ok(word) = u128::from_str_radix(&text, 16) else {
        eprintln!("usage: decode WORD, in hexadecimal digits");
        std::process::exit(2);
    };
    let (high, low) = ((word >> 64) as u64, word as u64);
    let fields = cheri_cap_unpack(high, low);
    let bounds = cheri_cap_decode(high, low);
    let top = u128::from(bounds.top_high) << 64 | u128::from(bounds.top_low);
    println!("word {word:032x}");
    println!("perms {:04x}\ntype {:05x}", fields.perms, fields.otype);
    println!("address {:#x}\nexponent {}", fields.address, bounds.exponent);
    println!("base {:#x}\ntop {top:#x}", bounds.base);
    let canonical = cheri_cap_is_canonical(high, low);
    println!("canonical {}", if canonical { "yes" } else { "no" });
}
