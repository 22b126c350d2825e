//! Recorded cases, one after the other: the length of the input and of the expected output as 4 bytes each, least
//! significant first, then the input (the record CF and the requests of one call) and the output (the replies).

pub struct Case {
    pub input: Vec<u8>,
    pub output: Vec<u8>,
}

pub fn write(cases: &[Case]) -> Vec<u8> {
    let mut bytes = Vec::new();
    for case in cases {
        bytes.extend_from_slice(&length(&case.input));
        bytes.extend_from_slice(&length(&case.output));
        bytes.extend_from_slice(&case.input);
        bytes.extend_from_slice(&case.output);
    }
    bytes
}

pub fn read(bytes: &[u8]) -> Result<Vec<Case>, String> {
    let mut rest = bytes;
    let mut cases = Vec::new();
    while !rest.is_empty() {
        cases.push(read_one(&mut rest).ok_or_else(|| format!("case {} is cut short", cases.len() + 1))?);
    }
    Ok(cases)
}

fn read_one(rest: &mut &[u8]) -> Option<Case> {
    let input = u32::from_le_bytes(*take(rest, 4)?.first_chunk()?);
    let output = u32::from_le_bytes(*take(rest, 4)?.first_chunk()?);
    Some(Case { input: take(rest, input as usize)?.to_vec(), output: take(rest, output as usize)?.to_vec() })
}

fn take<'a>(rest: &mut &'a [u8], count: usize) -> Option<&'a [u8]> {
    let (front, back) = rest.split_at_checked(count)?;
    *rest = back;
    Some(front)
}

fn length(bytes: &[u8]) -> [u8; 4] {
    u32::try_from(bytes.len()).expect("a case is shorter than 4 GiB").to_le_bytes()
}
