//! Stands in for a sibling of the grammar's files that is not given. `property_section` is private to the grammar; a method here
//! hands it out.
use crate::parser::Parser;

pub(crate) fn aadl_package(_p: &mut Parser) {}

impl<'t> Parser<'t> {
    pub fn run_property_section(&mut self) {
        super::properties::property_section(self)
    }
}
