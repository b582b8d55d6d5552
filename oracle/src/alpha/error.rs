//! Stand-in: locations and errors, as far as the Delta files make them. No
//! parse entry makes any; they are built only when a whole file is reported on.

use super::lexer;

#[derive(Debug, Clone)]
pub struct Location {
    pub source_filename: String,
    pub span: std::ops::Range<usize>,
    pub line_number: usize,
    pub line_offset: usize,
}

impl Location {
    pub fn combined_with(self, other: &Location) -> Location {
        Location {
            span: self.span.start.min(other.span.start)..self.span.end.max(other.span.end),
            ..self
        }
    }
}

#[derive(Debug)]
pub struct Errors {
    pub errors: Vec<Error>,
}

#[derive(Debug)]
pub enum Error {
    Lexical {
        error: lexer::Error,
        location: Location,
        expectation: String,
    },
    UnexpectedEndOfFile {
        location: Location,
        last_location: Location,
        expectation: String,
    },
    UnexpectedToken {
        location: Location,
        expectation: String,
    },
    UnexpectedSemicolonAfterIdentifier {
        location: Location,
        after: Location,
    },
    UnexpectedSemicolonAfterReturnValue {
        location: Location,
        after: Location,
    },
    MissingReturnValueAfterStatement {
        location: Location,
        after: Location,
    },
    MissingConstantType {
        location: Location,
    },
    MissingParameterType {
        location: Location,
    },
    MissingMemberType {
        location: Location,
    },
    MaximumParseDepthExceeded {
        location: Location,
    },
    PublicImport {
        location: Location,
    },
    NonUtf8Import {
        location: Location,
    },
    UnresolvedImport {
        filename: String,
        location: Location,
    },
    UnresolvedImportWithHint {
        filename: String,
        location: Location,
        hinted_package_name: String,
    },
}
