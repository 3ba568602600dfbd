//! A program over the crate morus: built against morus 0.1.5 and against bindings/rust, it writes the same.
use morus::{Error, Key, Morus, Nonce, Tag};

/// Bytes that look random, the same at each run.
struct Bytes(u64);

impl Bytes {
    fn next(&mut self) -> u8 {
        self.0 = self
            .0
            .wrapping_mul(6364136223846793005)
            .wrapping_add(1442695040888963407);
        (self.0 >> 56) as u8
    }

    fn some(&mut self, n: usize) -> Vec<u8> {
        (0..n).map(|_| self.next()).collect()
    }

    fn sixteen(&mut self) -> [u8; 16] {
        let mut b = [0u8; 16];
        b.iter_mut().for_each(|x| *x = self.next());
        b
    }
}

fn digits(bytes: &[u8]) -> String {
    bytes.iter().map(|b| format!("{:02x}", b)).collect()
}

fn told(result: Result<Vec<u8>, Error>) -> String {
    match result {
        Ok(m) => digits(&m),
        Err(e) => {
            let error: &dyn std::error::Error = &e;
            format!("{:?} {} {}", e, error, e == Error::InvalidTag)
        }
    }
}

fn opened(nonce: &Nonce, key: &Key, c: &[u8], tag: &Tag, ad: &[u8]) {
    let mut buffer = c.to_vec();
    let result: Result<(), Error> = Morus::new(nonce, key).decrypt_in_place(&mut buffer, tag, ad);
    println!("{:?} {}", result, digits(&buffer));
    println!("{}", told(Morus::new(nonce, key).decrypt(c, tag, ad)));
}

fn sealed(nonce: &Nonce, key: &Key, n: usize, m: usize, bytes: &mut Bytes) {
    let (ad, message) = (bytes.some(n), bytes.some(m));
    let (c, tag): (Vec<u8>, Tag) = Morus::new(nonce, key).encrypt(&message, &ad);
    let mut buffer = message.clone();
    let again: Tag = Morus::new(nonce, key).encrypt_in_place(&mut buffer, &ad);
    println!(
        "{} {} {} {} {} {}",
        n,
        m,
        digits(&c),
        digits(&tag),
        digits(&buffer),
        digits(&again)
    );
    opened(nonce, key, &c, &tag, &ad);
    let mut other = tag;
    other[bytes.next() as usize % 16] ^= 1;
    opened(nonce, key, &c, &other, &ad);
    opened(key, nonce, &c, &tag, &ad);
}

fn main() {
    let mut bytes = Bytes(1280);
    for n in [0, 1, 16, 31, 32, 33, 63, 64, 65, 100] {
        for m in [0, 1, 15, 31, 32, 33, 63, 64, 65, 96, 256, 1000] {
            let (key, nonce): (Key, Nonce) = (bytes.sixteen(), bytes.sixteen());
            sealed(&nonce, &key, n, m, &mut bytes);
            // The cipher takes a nonce of zeros as any other; the journal alone refuses it.
            sealed(&[0; 16], &key, n, m, &mut bytes);
        }
    }
}
