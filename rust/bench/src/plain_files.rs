//! A writer and a reader of table files as one would write them in Rust by hand. They check what the library's check, in the same sequence, and write the
//! same bytes and words.
use ducatbriar::calls::ColumnTrie;
use ducatbriar::limits::{field_rows, MAX_ARITY, MAX_CAPACITY};

/// The two lists of a layer.
struct Layer<'a> {
    data: &'a [u64],
    interval: &'a [u64],
}

/// The layers, if the header fits limits and pool.
fn layers<'a>(pool: &'a [u64], t: ColumnTrie) -> Option<Vec<Layer<'a>>> {
    let arity = usize::try_from(t.arity).ok().filter(|arity| (1..=MAX_ARITY).contains(arity))?;
    let capacity = usize::try_from(t.capacity).ok().filter(|capacity| (1..=MAX_CAPACITY).contains(capacity))?;
    let words = pool.get(usize::try_from(t.start).ok()?..)?.get(..2 * arity * capacity)?;
    let zero = |lengths: &[u64]| lengths[arity..].iter().all(|&len| len == 0);
    if !zero(&t.data_len) || !zero(&t.interval_len) || t.grade[arity..].contains(&true) {
        return None;
    }
    let mut all = vec![];
    for (d, words) in words.chunks(2 * capacity).enumerate() {
        let (data, interval) = words.split_at(capacity);
        let list = |list: &'a [u64], len: u64| usize::try_from(len).ok().and_then(|len| list.get(..len));
        all.push(Layer { data: list(data, t.data_len[d])?, interval: list(interval, t.interval_len[d])? });
    }
    Some(all)
}

/// The intervals start at 0, ascend and stay inside, and the keys of each group ascend.
fn layer_sound(layer: &Layer) -> bool {
    let ends = layer.interval.iter().skip(1).copied().chain([layer.data.len() as u64]);
    let group_sound = |(&start, end): (&u64, u64)| {
        let group = (start < end).then(|| layer.data.get(start as usize..end as usize)).flatten();
        group.is_some_and(|keys| keys.windows(2).all(|pair| pair[0] < pair[1]))
    };
    layer.interval.first() == Some(&0) && layer.interval.iter().zip(ends).all(group_sound)
}

fn sound(layers: &[Layer], count: u64) -> bool {
    let last = layers[layers.len() - 1].data.len() as u64;
    if count == 0 && layers.iter().all(|layer| layer.data.is_empty() && layer.interval.is_empty()) {
        return true;
    }
    count == last
        && layers[0].interval.len() == 1
        && layers.windows(2).all(|pair| pair[1].interval.len() == pair[0].data.len())
        && layers.iter().all(layer_sound)
}

/// Tag, length and value at the front of the bytes; what is left behind them.
fn put_field<'a>(bytes: &'a mut [u8], tag: u8, value: &[u8]) -> &'a mut [u8] {
    let (front, behind) = bytes.split_at_mut(3 + value.len());
    front[0] = tag;
    front[1..3].copy_from_slice(&(value.len() as u16).to_be_bytes());
    front[3..].copy_from_slice(value);
    behind
}

/// A walk over the rows: the place in each layer, and the row there.
struct Walk<'a> {
    layers: Vec<Layer<'a>>,
    places: [usize; MAX_ARITY],
    row: [u64; MAX_ARITY],
}

impl Walk<'_> {
    /// To the next row: one key further in the last layer, and in each layer above a group that is passed.
    fn advance(&mut self) {
        for d in (0..self.layers.len()).rev() {
            let layer = &self.layers[d];
            self.places[d] += 1;
            let place = self.places[d];
            self.row[d] = layer.data.get(place).copied().unwrap_or(0);
            let group = if d == 0 { 0 } else { self.places[d - 1] };
            if layer.interval.get(group + 1) != Some(&(place as u64)) {
                return;
            }
        }
    }
}

/// The file's length, if the table is undamaged and the file fits.
pub fn write(pool: &[u64], t: ColumnTrie, bytes: &mut [u8]) -> Option<usize> {
    let layers = layers(pool, t).filter(|layers| sound(layers, t.tuple_count))?;
    let (arity, rows) = (layers.len(), t.tuple_count as usize);
    let kinds: Vec<u8> = t.grade[..arity].iter().map(|&grade| u8::from(grade)).collect();
    let graded = kinds.contains(&1);
    let full = field_rows(arity);
    let len = 7 + if graded { 3 + arity } else { 0 } + 3 * rows.div_ceil(full) + 8 * arity * rows;
    let mut behind = put_field(bytes.get_mut(..len)?, 1, &[arity as u8]);
    if graded {
        behind = put_field(behind, 4, &kinds);
    }
    let mut row = [0; MAX_ARITY];
    row.iter_mut().zip(&layers).for_each(|(word, layer)| *word = layer.data.first().copied().unwrap_or(0));
    let mut walk = Walk { layers, places: [0; MAX_ARITY], row };
    for from in (0..rows).step_by(full) {
        let size = 8 * arity * full.min(rows - from);
        let (front, rest) = behind.split_at_mut(3 + size);
        front[0] = 2;
        front[1..3].copy_from_slice(&(size as u16).to_be_bytes());
        for place in front[3..].chunks_exact_mut(8 * arity) {
            place.chunks_exact_mut(8).zip(walk.row).for_each(|(place, word)| place.copy_from_slice(&word.to_be_bytes()));
            walk.advance();
        }
        behind = rest;
    }
    put_field(behind, 3, &[]);
    Some(len)
}

/// Tag and value of the field at the front, and what is left behind it.
fn field(bytes: &[u8]) -> Option<(u8, &[u8], &[u8])> {
    let (&[tag, high, low], behind) = bytes.split_first_chunk()?;
    let (value, behind) = behind.split_at_checked(usize::from(u16::from_be_bytes([high, low])))?;
    Some((tag, value, behind))
}

/// What a file says.
struct File<'a> {
    arity: usize,
    grade: [bool; MAX_ARITY],
    fields: Vec<&'a [u8]>,
}

/// The kinds, if there is a field of them, and what is left behind it.
fn kinds(arity: usize, bytes: &[u8]) -> Option<([bool; MAX_ARITY], &[u8])> {
    let mut grade = [false; MAX_ARITY];
    if bytes.first() != Some(&4) {
        return Some((grade, bytes));
    }
    let (_, value, behind) = field(bytes)?;
    if value.len() != arity || value.iter().any(|&byte| byte > 1) || !value.contains(&1) {
        return None;
    }
    grade.iter_mut().zip(value).for_each(|(grade, &byte)| *grade = byte == 1);
    Some((grade, behind))
}

/// All that makes bytes a file. Rows are in the order of their bytes.
fn check(bytes: &[u8]) -> Option<File<'_>> {
    let (1, &[arity], behind) = field(bytes)? else { return None };
    let arity = usize::from(arity);
    if !(1..=MAX_ARITY).contains(&arity) {
        return None;
    }
    let (grade, mut bytes) = kinds(arity, behind)?;
    let (size, mut fields, mut last): (_, Vec<&[u8]>, &[u8]) = (8 * arity, vec![], &[]);
    loop {
        let (tag, value, behind) = field(bytes)?;
        match tag {
            3 if value.is_empty() && behind.is_empty() => return Some(File { arity, grade, fields }),
            2 => {
                let full = fields.last().is_none_or(|before| before.len() / size == field_rows(arity));
                if value.is_empty() || value.len() % size != 0 || !full {
                    return None;
                }
                for row in value.chunks_exact(size) {
                    if last >= row {
                        return None;
                    }
                    last = row;
                }
                fields.push(value);
                bytes = behind;
            }
            _ => return None,
        }
    }
}

/// The table at `start` of the pool, if the bytes are a file, the capacity is inside its limits, the words lie in the pool and the rows fit.
pub fn read(bytes: &[u8], pool: &mut [u64], start: usize, capacity: usize) -> Option<ColumnTrie> {
    let File { arity, grade, fields } = check(bytes)?;
    if !(1..=MAX_CAPACITY).contains(&capacity) {
        return None;
    }
    let words = pool.get_mut(start..)?.get_mut(..2 * arity * capacity)?;
    let count: usize = fields.iter().map(|field| field.len() / (8 * arity)).sum();
    if count > capacity {
        return None;
    }
    let (mut data_len, mut interval_len) = ([0; MAX_ARITY], [0; MAX_ARITY]);
    let mut last = [0; MAX_ARITY];
    for (i, row) in fields.into_iter().flat_map(|field| field.chunks_exact(8 * arity)).enumerate() {
        let mut new = i == 0;
        for (d, word) in row.chunks_exact(8).enumerate() {
            let word = u64::from_be_bytes(word.try_into().unwrap());
            let at = 2 * capacity * d;
            if new {
                words[at + capacity + interval_len[d]] = data_len[d] as u64;
                interval_len[d] += 1;
            }
            new |= word != last[d];
            if new {
                words[at + data_len[d]] = word;
                data_len[d] += 1;
            }
            last[d] = word;
        }
    }
    let lengths = |lens: [usize; MAX_ARITY]| lens.map(|len| len as u64);
    let (data_len, interval_len) = (lengths(data_len), lengths(interval_len));
    let (start, arity, capacity) = (start as u64, arity as u64, capacity as u64);
    Some(ColumnTrie { start, arity, capacity, data_len, interval_len, tuple_count: count as u64, grade })
}
