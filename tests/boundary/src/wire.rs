//! Requests and answers as bytes, little-endian.

/// Bytes of every number but entries and bytes of text.
pub const NUMBER_WIDTH: usize = 4;

/// The beginning of a request.
pub fn request(opcode: u32, numbers: &[u64]) -> Vec<u8> {
    let mut request = opcode.to_le_bytes().to_vec();
    put_numbers(&mut request, numbers);
    request
}

pub fn put_numbers(request: &mut Vec<u8>, numbers: &[u64]) {
    for number in numbers {
        let number = u32::try_from(*number).expect("numbers have 32 bits");
        request.extend(number.to_le_bytes());
    }
}

/// Each width by itself, so that the compiler knows it: an entry then takes no call.
pub fn put_entries(request: &mut Vec<u8>, entries: &[u64], width: usize) {
    match width {
        1 => put_wide::<1>(request, entries),
        2 => put_wide::<2>(request, entries),
        4 => put_wide::<4>(request, entries),
        _ => put_wide::<8>(request, entries),
    }
}

fn put_wide<const WIDTH: usize>(request: &mut Vec<u8>, entries: &[u64]) {
    for entry in entries {
        request.extend_from_slice(&entry.to_le_bytes()[..WIDTH]);
    }
}

pub fn entries_of(bytes: &[u8], width: usize) -> Vec<u64> {
    match width {
        1 => wide_entries::<1>(bytes),
        2 => wide_entries::<2>(bytes),
        4 => wide_entries::<4>(bytes),
        _ => wide_entries::<8>(bytes),
    }
}

/// The lowest byte of each entry.
pub fn bytes_of(entries: &[u64]) -> Vec<u8> {
    entries.iter().map(|entry| *entry as u8).collect()
}

fn wide_entries<const WIDTH: usize>(bytes: &[u8]) -> Vec<u64> {
    let entry = |bytes: &[u8]| {
        let mut entry = [0; 8];
        entry[..WIDTH].copy_from_slice(bytes);
        u64::from_le_bytes(entry)
    };
    bytes.chunks_exact(WIDTH).map(entry).collect()
}
