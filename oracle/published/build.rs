//! Copies the four published files, unchanged, to the build's own folder, beside the stand-ins for what their module tree lacks.
//! Each must have the SHA-256 given here; the function is written out below.

use std::path::{Path, PathBuf};
use std::{env, fs, process};

const FILES: [(&str, &str); 4] = [
    ("entity_manifest.rs", "49c1bc00a7053a7ab643081013e86548c5e302f7e9617fbcf7fc3fc1e62115c5"),
    ("entity_manifest/analysis.rs", "ede9e4710346e50ed758ef6ff415cc44357328cef6c3a1ed4784c1176db8dd70"),
    ("entity_manifest/loader.rs", "bf5cec0339600e23f8f0296b8d82fed5abfd334587e9228b2bc8081d3da4b6bf"),
    ("entity_manifest/type_annotations.rs", "6e9773ac682d5a7a1af2f8c3f65025edcaae0c4906579fdbae7f5cfc88c14035"),
];

/// From this crate's standin/ to the place that the module tree gives them.
const STANDINS: [(&str, &str); 4] = [
    ("root.rs", "src/root.rs"),
    ("slicing.rs", "src/entity_manifest/slicing.rs"),
    ("probe.rs", "src/entity_manifest/slicing/probe.rs"),
    ("experimental_warning.md", "experimental_warning.md"),
];

fn stop(why: String) -> ! {
    println!("cargo:warning=oracle: {why}");
    eprintln!("oracle: {why}");
    process::exit(1)
}

fn put(to: &Path, bytes: &[u8]) {
    fs::create_dir_all(to.parent().unwrap()).unwrap();
    // an unchanged file keeps its time, so that nothing is compiled again
    if fs::read(to).ok().as_deref() != Some(bytes) {
        fs::write(to, bytes).unwrap();
    }
}

fn main() {
    let here = PathBuf::from(env::var_os("CARGO_MANIFEST_DIR").unwrap());
    let out = PathBuf::from(env::var_os("OUT_DIR").unwrap());
    println!("cargo:rerun-if-env-changed=ORACLE_SRC");
    println!("cargo:rerun-if-changed=build.rs");
    let source = match env::var_os("ORACLE_SRC") {
        Some(folder) => PathBuf::from(folder),
        // oracle/published -> the repository's root -> beside it
        None => here.join("../../../shared/docs/src"),
    };
    let said = source.display();
    if !source.join("src").is_dir() {
        println!("cargo:rerun-if-changed={said}");
        stop(format!(
            "the published Rust is missing: no folder {said}/src. It is read from ../shared/docs/src beside the repository; ORACLE_SRC names another folder"
        ));
    }
    for (name, sum) in FILES {
        let from = source.join("src").join(name);
        println!("cargo:rerun-if-changed={}", from.display());
        let bytes = fs::read(&from).unwrap_or_else(|e| stop(format!("the published file {} cannot be read: {e}", from.display())));
        let got = sha256(&bytes);
        if got != sum {
            stop(format!("the published file {} has changed: SHA-256 {got}, expected {sum}", from.display()));
        }
        put(&out.join("src").join(name), &bytes);
    }
    for (from, to) in STANDINS {
        let from = here.join("standin").join(from);
        println!("cargo:rerun-if-changed={}", from.display());
        put(&out.join(to), &fs::read(&from).unwrap());
    }
}

/// SHA-256 (FIPS 180-4), its constants worked out from square and cube roots of the first primes.
fn sha256(bytes: &[u8]) -> String {
    let primes: Vec<u64> = (2u64..).filter(|n| (2..*n).take_while(|d| d * d <= *n).all(|d| n % d != 0)).take(64).collect();
    // the first 32 bits of the fraction of p^(1/n): the greatest r with r^n <= p * 2^(32 n), less its whole part
    let root = |p: u64, n: u32| {
        let (mut low, mut high) = (0u128, 1u128 << 40);
        while high - low > 1 {
            let mid = (low + high) / 2;
            // mid^3 can be over 128 bits only where mid is far too large
            let fits = mid.checked_pow(n).is_some_and(|x| x <= (p as u128) << (32 * n));
            if fits { low = mid } else { high = mid }
        }
        low as u32
    };
    let k: Vec<u32> = primes.iter().map(|p| root(*p, 3)).collect();
    let mut h: Vec<u32> = primes[..8].iter().map(|p| root(*p, 2)).collect();
    let mut text = bytes.to_vec();
    text.push(0x80);
    while text.len() % 64 != 56 {
        text.push(0);
    }
    text.extend((bytes.len() as u64 * 8).to_be_bytes());
    for block in text.chunks(64) {
        let mut w: Vec<u32> = block.chunks(4).map(|c| u32::from_be_bytes(c.try_into().unwrap())).collect();
        for i in 16..64 {
            let a = w[i - 15].rotate_right(7) ^ w[i - 15].rotate_right(18) ^ (w[i - 15] >> 3);
            let b = w[i - 2].rotate_right(17) ^ w[i - 2].rotate_right(19) ^ (w[i - 2] >> 10);
            w.push(w[i - 16].wrapping_add(a).wrapping_add(w[i - 7]).wrapping_add(b));
        }
        let mut v = h.clone();
        for i in 0..64 {
            let s1 = v[4].rotate_right(6) ^ v[4].rotate_right(11) ^ v[4].rotate_right(25);
            let t1 = v[7].wrapping_add(s1).wrapping_add((v[4] & v[5]) ^ (!v[4] & v[6])).wrapping_add(k[i]).wrapping_add(w[i]);
            let s0 = v[0].rotate_right(2) ^ v[0].rotate_right(13) ^ v[0].rotate_right(22);
            let t2 = s0.wrapping_add((v[0] & v[1]) ^ (v[0] & v[2]) ^ (v[1] & v[2]));
            v.rotate_right(1);
            v[4] = v[4].wrapping_add(t1);
            v[0] = t1.wrapping_add(t2);
        }
        for (x, y) in h.iter_mut().zip(v) {
            *x = x.wrapping_add(y);
        }
    }
    h.iter().map(|x| format!("{x:08x}")).collect()
}
