//! CMAC once more: the steps of the standard one by one, over bytes.
//! Follows NIST SP 800-38B, sections 6.1 and 6.2.

pub type Block = [u8; 16];

/// X << 1: each byte takes the highest bit of the next.
fn shifted(x: Block) -> Block {
    let mut y = [0; 16];
    for i in 0..15 {
        y[i] = (x[i] << 1) | (x[i + 1] >> 7);
    }
    y[15] = x[15] << 1;
    y
}

/// Steps 2 and 3 of 6.1, each for one subkey.
fn next_key(x: Block) -> Block {
    let mut y = shifted(x);
    if x[0] & 0x80 != 0 {
        y[15] ^= 0x87;
    }
    y
}

/// 6.1: L, K1 and K2.
pub fn subkeys(e: &dyn Fn(Block) -> Block) -> [Block; 3] {
    let l = e([0; 16]);
    let k1 = next_key(l);
    let k2 = next_key(k1);
    [l, k1, k2]
}

/// 6.2, with a Tlen of 128.
pub fn cmac(e: &dyn Fn(Block) -> Block, message: &[u8]) -> Block {
    let [_, k1, k2] = subkeys(e);
    let n = if message.is_empty() {
        1
    } else {
        (message.len() + 15) / 16
    };
    let complete = message.len() == 16 * n;
    let mut m = message.to_vec();
    if !complete {
        m.push(0x80);
        m.resize(16 * n, 0);
    }
    for i in 0..16 {
        m[16 * (n - 1) + i] ^= if complete { k1[i] } else { k2[i] };
    }
    let mut c = [0; 16];
    for block in m.chunks(16) {
        for i in 0..16 {
            c[i] ^= block[i];
        }
        c = e(c);
    }
    c
}
