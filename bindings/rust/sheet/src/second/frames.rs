//! Block times of a live frame. The sentences quoted here are those of document 02, L5.

/// "Each other length is 0 or at least 5,000."
pub const LEAST_LENGTH: u32 = 5_000;

/// Why a list of blocks doesn't conform.
#[derive(Clone, Copy, Debug, PartialEq, Eq)]
pub enum Broken {
    /// "35, an initialising block not first."
    InitialisingNotFirst,
    /// "36, a bad length or start, or an unfinished last block."
    BadBlock,
    /// "37, no block at all (Table 20) or a total unlike the frame."
    BadTotal,
}

impl Broken {
    /// The error's number.
    pub fn number(self) -> u8 {
        match self {
            Broken::InitialisingNotFirst => 35,
            Broken::BadBlock => 36,
            Broken::BadTotal => 37,
        }
    }
}

/// A block: "start, length, initialising or not".
#[derive(Clone, Copy)]
struct Block {
    start: u32,
    length: u32,
    is_initialising: bool,
}

impl Block {
    /// "Three to a block, the third 0 if it isn't initialising and any other if it is."
    fn of([start, length, third]: [u32; 3]) -> Block {
        Block { start, length, is_initialising: third != 0 }
    }
}

/// Whether the blocks that these numbers make conform to a frame of this length.
pub fn check(frame: u32, numbers: &[u32]) -> Result<(), Broken> {
    let (whole, left_over) = numbers.as_chunks();
    let blocks: Vec<Block> = whole.iter().copied().map(Block::of).collect();
    conforms(frame, &blocks, !left_over.is_empty())
}

/// The same for the input of `framecheck`: "32-bit numbers, high byte first: the frame length, then
/// three a block". None where it has no frame length. Bytes that are left over make no block.
pub fn check_input(input: &[u8]) -> Option<Result<(), Broken>> {
    let (frame, blocks) = input.split_first_chunk()?;
    let (whole, left_over) = blocks.as_chunks();
    let blocks: Vec<Block> = whole.iter().map(numbers_of_block).map(Block::of).collect();
    Some(conforms(u32::from_be_bytes(*frame), &blocks, !left_over.is_empty()))
}

fn numbers_of_block(bytes: &[u8; 12]) -> [u32; 3] {
    let (numbers, _) = bytes.as_chunks();
    [0, 1, 2].map(|place| u32::from_be_bytes(numbers[place]))
}

/// The line that `framecheck` prints.
pub fn line(verdict: Result<(), Broken>) -> String {
    match verdict {
        Ok(()) => "accepted\n".to_string(),
        Err(broken) => format!("rule {}\n", broken.number()),
    }
}

/// The errors are tried "in this order".
fn conforms(frame: u32, blocks: &[Block], is_unfinished: bool) -> Result<(), Broken> {
    let sums = sums(blocks);
    if blocks.iter().skip(1).any(|block| block.is_initialising) {
        return Err(Broken::InitialisingNotFirst);
    }
    if is_unfinished || blocks.iter().zip(&sums).any(|(block, &earlier)| is_bad(block, earlier)) {
        return Err(Broken::BadBlock);
    }
    if blocks.is_empty() || sums[blocks.len()] != u128::from(frame) {
        return Err(Broken::BadTotal);
    }
    Ok(())
}

/// For each block "the sum of earlier lengths", and at the end that of all. An initialising block
/// "is ignored in all sums"; "sums are exact here".
fn sums(blocks: &[Block]) -> Vec<u128> {
    let (mut sum, mut sums) = (0, vec![0]);
    for block in blocks {
        if !block.is_initialising {
            sum += u128::from(block.length);
        }
        sums.push(sum);
    }
    sums
}

/// "A bad length or start"; those of an initialising block "are not read".
fn is_bad(block: &Block, earlier: u128) -> bool {
    let bad_length = block.length != 0 && block.length < LEAST_LENGTH;
    let bad_start = u128::from(block.start) != earlier;
    !block.is_initialising && (bad_length || bad_start)
}

/// The most blocks that an accepted list has: "the frame length divided by 5,000, rounded down,
/// plus 1 if it has an initialising block, plus the number of zero lengths".
pub fn most_blocks(frame: u32, numbers: &[u32]) -> u128 {
    let (whole, _) = numbers.as_chunks();
    let blocks = || whole.iter().copied().map(Block::of);
    let initialising = blocks().any(|block| block.is_initialising);
    let zeros = blocks().filter(|block| !block.is_initialising && block.length == 0).count();
    u128::from(frame / LEAST_LENGTH) + u128::from(initialising) + zeros as u128
}
