// The types that source 000 builds, from source document 001, src/ast.rs of markup-carve/carve-rs (MIT licence),
// to the letter with their derives.
// Copyright (c) 2026 Mark Scherer and contributors.

use std::collections::BTreeMap;

/// Authored attributes and their source order.
#[derive(Debug, Clone, PartialEq, Eq, Default)]
pub struct Attrs {
    /// Explicit node identifier, when the author supplied one.
    pub id: Option<String>,
    /// Class names in authored order.
    pub classes: Vec<String>,
    /// Named attribute values, indexed by key.
    pub key_values: BTreeMap<String, String>,
    /// Order of the identifier, classes, and named attributes in source.
    pub order: Vec<AttrSlot>,
}

/// An attribute position in [`Attrs::order`].
#[derive(Debug, Clone, PartialEq, Eq, Hash)]
pub enum AttrSlot {
    /// The explicit identifier.
    Id,
    /// A class from [`Attrs::classes`].
    Class,
    /// The named value stored under this key in [`Attrs::key_values`].
    Key(String),
}

/// Horizontal alignment of a table column or cell.
#[derive(Debug, Clone, Copy, PartialEq, Eq)]
pub enum TableAlign {
    /// Left aligned.
    Left,
    /// Right aligned.
    Right,
    /// Centered.
    Center,
}

/// Resolved publishing metadata for a table column.
#[derive(Debug, Clone, Copy, PartialEq)]
pub struct TableColumn {
    /// Horizontal alignment, if specified.
    pub align: Option<TableAlign>,
    /// Vertical alignment, if specified.
    pub valign: Option<TableVerticalAlign>,
    /// Fraction of the table width, in `(0, 1]`.
    pub width: Option<f64>,
}

// Widths are finite values validated at the AST boundary.
impl Eq for TableColumn {}

/// Vertical alignment of a table column or cell.
#[derive(Debug, Clone, Copy, PartialEq, Eq)]
pub enum TableVerticalAlign {
    /// Top aligned.
    Top,
    /// Centered vertically.
    Middle,
    /// Bottom aligned.
    Bottom,
}
