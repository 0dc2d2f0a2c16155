//! Stand-in: a float's text, XML only.

pub fn float(_x: f32) -> String {
    unimplemented!("XML is not written here")
}
