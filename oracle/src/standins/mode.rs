// Stand-in for the original's list of modes, whose text we do not have. All
// sixteen are named, since the original matches on them; the port covers each.

#[derive(Debug, Clone, Copy, PartialEq, Eq, Hash)]
pub enum Mode {
    Snes,
    SnesMode7,
    Gb,
    Gbc,
    Gba,
    GbaAffine,
    Md,
    Pce,
    PceSprite,
    Sms,
    Gg,
    Ngp,
    Ngpc,
    Ws,
    Wsc,
    WscPacked,
}
