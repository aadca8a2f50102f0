//! Pixels as a picture that a page holds in itself: an uncompressed bitmap in base 64.

/// Rows of pixels from the top down, as the address of an image.
pub fn address(width: usize, pixels: &[[u8; 3]]) -> String {
    format!("data:image/bmp;base64,{}", base_64(&bitmap(width, pixels)))
}

fn bitmap(width: usize, pixels: &[[u8; 3]]) -> Vec<u8> {
    let height = pixels.len() / width;
    let line = (3 * width).div_ceil(4) * 4;
    let size = 54 + line * height;
    let mut bytes = b"BM".to_vec();
    let words =
        [size as u32, 0, 54, 40, width as u32, height as u32, 1 | 24 << 16, 0, (line * height) as u32, 0, 0, 0, 0];
    words.iter().for_each(|word| bytes.extend(word.to_le_bytes()));
    for row in pixels.chunks(width).rev() {
        row.iter().for_each(|&[r, g, b]| bytes.extend([b, g, r]));
        bytes.resize(bytes.len() + line - 3 * width, 0);
    }
    bytes
}

fn base_64(bytes: &[u8]) -> String {
    const DIGITS: &[u8; 64] = b"ABCDEFGHIJKLMNOPQRSTUVWXYZabcdefghijklmnopqrstuvwxyz0123456789+/";
    let mut text = String::new();
    for three in bytes.chunks(3) {
        let number = three.iter().fold(0, |number, &byte| number << 8 | u32::from(byte)) << (8 * (3 - three.len()));
        for place in 0..4 {
            let digit = DIGITS[(number >> (18 - 6 * place) & 63) as usize];
            text.push(if place <= three.len() { char::from(digit) } else { '=' });
        }
    }
    text
}

#[cfg(test)]
mod tests {
    #[test]
    fn base_64_as_it_is_written() {
        for (bytes, text) in [("", ""), ("f", "Zg=="), ("fo", "Zm8="), ("foo", "Zm9v"), ("foob", "Zm9vYg==")] {
            assert_eq!(super::base_64(bytes.as_bytes()), text);
        }
    }
}
