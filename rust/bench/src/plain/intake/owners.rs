//! The next line of the owners file.

/// What a line says.
#[derive(Clone, Copy)]
pub struct Owner {
    uid: u32,
    gid: u32,
    pub index: u32,
}

impl Owner {
    /// Uid and gid as a row has them.
    pub fn bytes(self) -> [u8; 8] {
        (u64::from(self.gid) << 32 | u64::from(self.uid)).to_le_bytes()
    }
}

/// The line from a place on, and the place behind it.
pub fn next(owners: &[u8], from: usize) -> Option<(Owner, usize)> {
    let mut at = from;
    let uid = number(owners, &mut at)?;
    space(owners, &mut at)?;
    let gid = number(owners, &mut at)?;
    space(owners, &mut at)?;
    let index = number(owners, &mut at)?;
    match owners.get(at) {
        None => (),
        Some(b'\n') => at += 1,
        Some(_) => return None,
    }
    Some((Owner { uid, gid, index }, at))
}

fn space(owners: &[u8], at: &mut usize) -> Option<()> {
    let is_space = owners.get(*at) == Some(&b' ');
    *at += 1;
    is_space.then_some(())
}

fn number(owners: &[u8], at: &mut usize) -> Option<u32> {
    let mut number = None;
    while let Some(digit) = owners.get(*at).filter(|byte| byte.is_ascii_digit()) {
        let value = u32::from(digit - b'0');
        number = Some(
            number
                .unwrap_or(0_u32)
                .checked_mul(10)?
                .checked_add(value)?,
        );
        *at += 1;
    }
    number
}
