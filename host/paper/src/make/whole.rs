use super::{TableRow, View};

/// Rows of every type, and a view that has a key for each, 1 to 7 in offset
/// order; it has no organisation.
pub fn whole_view() -> (Vec<TableRow>, View) {
    let rows = vec![
        TableRow::locality(1, "HOLT", "", ""),
        TableRow::thoroughfare(2, "HIGH"),
        TableRow::thoroughfare(4, "SEASTONE"),
        TableRow::descriptor(3, "STREET"),
        TableRow::descriptor(5, "COURT"),
        TableRow::building(6, "THE MANOR"),
        TableRow::sub_building(7, "FLAT 1"),
    ];
    let view = View {
        locality: 1,
        thoroughfare: 2,
        descriptor: 3,
        dependent_thoroughfare: 4,
        dependent_descriptor: 5,
        building: 6,
        sub_building: 7,
        ..View::default()
    };
    (rows, view)
}

/// A change of a view.
pub type Change = fn(&mut View);

/// Changes after which a view lacks the row of field 1, 2 and so on up to 8, the
/// organisation of a Mainfile set: its key is one that no row has.
pub const MISSING: [Change; 8] = [
    |view| view.locality = 99,
    |view| view.thoroughfare = 99,
    |view| view.descriptor = 99,
    |view| view.dependent_thoroughfare = 99,
    |view| view.dependent_descriptor = 99,
    |view| view.building = 99,
    |view| view.sub_building = 99,
    |view| view.organisation_key = 99,
];

/// Changes after which a view that has every key breaks rule 8, each with the
/// detail.
pub const FORBIDDEN: [(Change, u64); 4] = [
    (|view| view.building = 0, 1),
    (|view| view.thoroughfare = 0, 2),
    (|view| view.dependent_thoroughfare = 0, 3),
    (without_street, 3),
];

fn without_street(view: &mut View) {
    view.thoroughfare = 0;
    view.dependent_thoroughfare = 0;
}
