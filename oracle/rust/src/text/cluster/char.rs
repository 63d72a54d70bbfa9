//! Shape classes in the order of SCOPE 4.1.

/// Named by mod.rs.
pub struct Char;

#[derive(Copy, Clone, PartialEq, Eq)]
pub enum ShapeClass {
    Base, Mark, Control, Reph, Kinzi, Halant, VPre, VBlw, VMPre, MedialRa, Anusvara, Vs, Zwnj, Zwj, Other,
}
