//! The words of a line, as docs/FORMATS.md has them in "Histories as text", the tags of values, and SHA-256 (FIPS 180-4).

const NAME_MOST: usize = 64;
const VALUE_MOST: usize = 64;

/// A caller's name, cut and coded.
pub fn name_word(name: &str) -> String {
    word(&name.as_bytes()[..name.len().min(NAME_MOST)])
}

/// Bytes as a word: percent-encoded, a hyphen if there are none.
pub fn word(data: &[u8]) -> String {
    let is_plain = |b: u8| b.is_ascii_graphic() && b != b'%' && b != b'#' && (b != b'-' || data.len() > 1);
    let coded = |b: &u8| if is_plain(*b) { char::from(*b).to_string() } else { format!("%{b:02X}") };
    if data.is_empty() { "-".to_string() } else { data.iter().map(coded).collect() }
}

/// A value: its tag, and either all of the rest or, if that is long, its hash.
pub fn value_word(data: &[u8]) -> String {
    let (tag, rest) = data.split_at(tag_size(data));
    if rest.len() <= VALUE_MOST { word(data) } else { format!("{}sha256.{}", String::from_utf8_lossy(tag), sha256_half(rest)) }
}

/// The size of the tag that a value begins with, of whichever recorder; 0 if there is none.
pub fn tag_size(data: &[u8]) -> usize {
    let is_hex = |b: &u8| b.is_ascii_digit() || (b'a'..=b'f').contains(b);
    if data.len() < 19 || &data[..4] != b"rec." || !data[4..16].iter().all(is_hex) || data[16] != b'.' {
        return 0;
    }
    let digits = data[17..].iter().take_while(|b| b.is_ascii_digit()).count();
    if (1..=20).contains(&digits) && data.get(17 + digits) == Some(&b'|') { 18 + digits } else { 0 }
}

/// The first 32 of the 64 digits that `sha256sum` prints.
fn sha256_half(data: &[u8]) -> String {
    let mut state = [0x6a09e667u32, 0xbb67ae85, 0x3c6ef372, 0xa54ff53a, 0x510e527f, 0x9b05688c, 0x1f83d9ab, 0x5be0cd19];
    let (blocks, rest) = data.split_at(data.len() / 64 * 64);
    let mut end = rest.to_vec();
    end.push(0x80);
    end.resize(if rest.len() < 56 { 56 } else { 120 }, 0);
    end.extend((data.len() as u64 * 8).to_be_bytes());
    blocks.chunks(64).chain(end.chunks(64)).for_each(|it| add_block(&mut state, it));
    state[..4].iter().map(|it| format!("{it:08x}")).collect()
}

fn add_block(state: &mut [u32; 8], block: &[u8]) {
    let mut w = [0u32; 64];
    for i in 0..16 {
        w[i] = u32::from_be_bytes([block[4 * i], block[4 * i + 1], block[4 * i + 2], block[4 * i + 3]]);
    }
    let turned = |word: u32, by: [u32; 2]| word.rotate_right(by[0]) ^ word.rotate_right(by[1]);
    for i in 16..64 {
        let (a, b) = (turned(w[i - 15], [7, 18]) ^ w[i - 15] >> 3, turned(w[i - 2], [17, 19]) ^ w[i - 2] >> 10);
        w[i] = w[i - 16].wrapping_add(a).wrapping_add(w[i - 7]).wrapping_add(b);
    }
    let mut s = *state;
    for i in 0..64 {
        let (early, late) = (turned(s[0], [2, 13]) ^ s[0].rotate_right(22), turned(s[4], [6, 11]) ^ s[4].rotate_right(25));
        let one = s[7].wrapping_add(late).wrapping_add((s[4] & s[5]) ^ (!s[4] & s[6])).wrapping_add(K[i]).wrapping_add(w[i]);
        let two = early.wrapping_add((s[0] & s[1]) ^ (s[0] & s[2]) ^ (s[1] & s[2]));
        s = [one.wrapping_add(two), s[0], s[1], s[2], s[3].wrapping_add(one), s[4], s[5], s[6]];
    }
    for i in 0..8 {
        state[i] = state[i].wrapping_add(s[i]);
    }
}

const K: [u32; 64] = [
    0x428a2f98, 0x71374491, 0xb5c0fbcf, 0xe9b5dba5, 0x3956c25b, 0x59f111f1, 0x923f82a4, 0xab1c5ed5, 0xd807aa98, 0x12835b01,
    0x243185be, 0x550c7dc3, 0x72be5d74, 0x80deb1fe, 0x9bdc06a7, 0xc19bf174, 0xe49b69c1, 0xefbe4786, 0x0fc19dc6, 0x240ca1cc,
    0x2de92c6f, 0x4a7484aa, 0x5cb0a9dc, 0x76f988da, 0x983e5152, 0xa831c66d, 0xb00327c8, 0xbf597fc7, 0xc6e00bf3, 0xd5a79147,
    0x06ca6351, 0x14292967, 0x27b70a85, 0x2e1b2138, 0x4d2c6dfc, 0x53380d13, 0x650a7354, 0x766a0abb, 0x81c2c92e, 0x92722c85,
    0xa2bfe8a1, 0xa81a664b, 0xc24b8b70, 0xc76c51a3, 0xd192e819, 0xd6990624, 0xf40e3585, 0x106aa070, 0x19a4c116, 0x1e376c08,
    0x2748774c, 0x34b0bcb5, 0x391c0cb3, 0x4ed8aa4a, 0x5b9cca4f, 0x682e6ff3, 0x748f82ee, 0x78a5636f, 0x84c87814, 0x8cc70208,
    0x90befffa, 0xa4506ceb, 0xbef9a3f7, 0xc67178f2,
];
