//! The kinds of tokens and nodes, one table.
use std::fmt;

macro_rules! kinds {
    (@words $name:ident) => { stringify!($name) };
    (@words $name:ident $text:literal) => { $text };
    ($($name:ident $($text:literal)?,)*) => {
        /// The kind of a token or node, in the order of the Rust parser's `SyntaxKind` and with its names.
        ///
        /// ```
        /// use gigboda::Kind;
        /// assert_eq!(Kind::of(183), Some(Kind::INTEGER_VALUE));
        /// assert_eq!(Kind::INTEGER_VALUE.to_string(), "INTEGER_VALUE");
        /// assert_eq!(Kind::SEMICOLON.in_words(), "`;`");
        /// ```
        #[allow(non_camel_case_types)]
        #[derive(Debug, Clone, Copy, PartialEq, Eq, PartialOrd, Ord, Hash)]
        #[repr(u8)]
        pub enum Kind {
            $($(#[doc = $text])? $name,)*
        }

        impl Kind {
            /// All kinds: a kind's number is its place here.
            pub const ALL: &'static [Kind] = &[$(Kind::$name,)*];

            /// The kind's name, which `Display` gives too.
            pub fn name(self) -> &'static str {
                const NAMES: &[&str] = &[$(stringify!($name),)*];
                NAMES[self as usize]
            }

            /// The kind as a person knows it: a mark or keyword as it is written, a literal or identifier in a word, else its name.
            pub fn in_words(self) -> &'static str {
                const WORDS: &[&str] = &[$(kinds!(@words $name $($text)?),)*];
                WORDS[self as usize]
            }
        }
    };
}

kinds! {
    // No token and no node, from 0 on.
    TOMBSTONE,
    EOF,
    // What fits no rule, a token or a node, from 2 on.
    ERROR,
    // Trivia, from 3 on.
    WHITESPACE,
    COMMENT,
    // Marks, from 5 on.
    SEMICOLON "`;`",
    COLON "`:`",
    COMMA "`,`",
    DOT "`.`",
    DOT_DOT "`..`",
    L_PAREN "`(`",
    R_PAREN "`)`",
    L_CURLY "`{`",
    R_CURLY "`}`",
    L_BRACKET "`[`",
    R_BRACKET "`]`",
    ARROW "`->`",
    BIDI_ARROW "`<->`",
    FAT_ARROW "`=>`",
    PLUS_ARROW "`+=>`",
    PLUS "`+`",
    MINUS "`-`",
    STAR "`*`",
    SLASH "`/`",
    COLON_COLON "`::`",
    ANNEX_OPEN "`{**`",
    ANNEX_CLOSE "`**}`",
    HASH "`#`",
    DASH_BRACKET "`-[`",
    BRACKET_ARROW "`]->`",
    // Literals and identifiers, from 30 on.
    INTEGER_LIT "an integer",
    REAL_LIT "a real number",
    STRING_LIT "a string",
    IDENT "an identifier",
    // Keywords, from 34 on.
    PACKAGE_KW "`package`",
    PUBLIC_KW "`public`",
    PRIVATE_KW "`private`",
    WITH_KW "`with`",
    END_KW "`end`",
    NONE_KW "`none`",
    RENAMES_KW "`renames`",
    SYSTEM_KW "`system`",
    PROCESS_KW "`process`",
    THREAD_KW "`thread`",
    GROUP_KW "`group`",
    PROCESSOR_KW "`processor`",
    VIRTUAL_KW "`virtual`",
    BUS_KW "`bus`",
    MEMORY_KW "`memory`",
    DEVICE_KW "`device`",
    SUBPROGRAM_KW "`subprogram`",
    DATA_KW "`data`",
    ABSTRACT_KW "`abstract`",
    IMPLEMENTATION_KW "`implementation`",
    EXTENDS_KW "`extends`",
    PROTOTYPES_KW "`prototypes`",
    FEATURES_KW "`features`",
    FLOWS_KW "`flows`",
    CONNECTIONS_KW "`connections`",
    MODES_KW "`modes`",
    PROPERTIES_KW "`properties`",
    SUBCOMPONENTS_KW "`subcomponents`",
    ANNEX_KW "`annex`",
    CALLS_KW "`calls`",
    INTERNAL_KW "`internal`",
    IN_KW "`in`",
    OUT_KW "`out`",
    PORT_KW "`port`",
    EVENT_KW "`event`",
    ACCESS_KW "`access`",
    PROVIDES_KW "`provides`",
    REQUIRES_KW "`requires`",
    FEATURE_KW "`feature`",
    PARAMETER_KW "`parameter`",
    INVERSE_KW "`inverse`",
    OF_KW "`of`",
    FLOW_KW "`flow`",
    SOURCE_KW "`source`",
    SINK_KW "`sink`",
    PATH_KW "`path`",
    INITIAL_KW "`initial`",
    MODE_KW "`mode`",
    TRANSITION_KW "`transition`",
    CONSTANT_KW "`constant`",
    APPLIES_KW "`applies`",
    TO_KW "`to`",
    INHERIT_KW "`inherit`",
    DELTA_KW "`delta`",
    IS_KW "`is`",
    ALL_KW "`all`",
    BINDING_KW "`binding`",
    CLASSIFIER_KW "`classifier`",
    REFERENCE_KW "`reference`",
    RECORD_KW "`record`",
    COMPUTE_KW "`compute`",
    TYPE_KW "`type`",
    SET_KW "`set`",
    RANGE_KW "`range`",
    UNITS_KW "`units`",
    ENUMERATION_KW "`enumeration`",
    LIST_KW "`list`",
    AADLBOOLEAN_KW "`aadlboolean`",
    AADLINTEGER_KW "`aadlinteger`",
    AADLREAL_KW "`aadlreal`",
    AADLSTRING_KW "`aadlstring`",
    PROPERTY_KW "`property`",
    TRUE_KW "`true`",
    FALSE_KW "`false`",
    NOT_KW "`not`",
    AND_KW "`and`",
    OR_KW "`or`",
    REFINED_KW "`refined`",
    SELF_KW "`self`",
    INTERFACE_KW "`interface`",
    FILE_KW "`file`",
    // Nodes: packages, from 115 on.
    SOURCE_FILE,
    AADL_PACKAGE,
    PUBLIC_SECTION,
    PRIVATE_SECTION,
    WITH_CLAUSE,
    NAME,
    QUALIFIED_NAME,
    NAME_LIST,
    PACKAGE_PROPERTIES,
    RENAMES_CLAUSE,
    // Nodes: components, from 125 on.
    COMPONENT_TYPE,
    COMPONENT_IMPL,
    COMPONENT_CATEGORY,
    TYPE_EXTENSION,
    IMPL_EXTENSION,
    REALIZATION,
    // Nodes: prototypes, from 131 on.
    PROTOTYPE_SECTION,
    PROTOTYPE,
    PROTOTYPE_BINDING,
    PROTOTYPE_BINDING_LIST,
    // Nodes: features, from 135 on.
    FEATURE_SECTION,
    DATA_PORT,
    EVENT_PORT,
    EVENT_DATA_PORT,
    PARAMETER,
    DATA_ACCESS,
    BUS_ACCESS,
    SUBPROGRAM_ACCESS,
    SUBPROGRAM_GROUP_ACCESS,
    FEATURE_GROUP,
    ABSTRACT_FEATURE,
    FEATURE_GROUP_TYPE,
    DIRECTION,
    // Nodes: subcomponents, from 148 on.
    SUBCOMPONENT_SECTION,
    SUBCOMPONENT,
    // Nodes: connections, from 150 on.
    CONNECTION_SECTION,
    PORT_CONNECTION,
    ACCESS_CONNECTION,
    FEATURE_GROUP_CONNECTION,
    FEATURE_CONNECTION,
    PARAMETER_CONNECTION,
    CONNECTED_ELEMENT,
    // Nodes: flows, from 157 on.
    FLOW_SPEC_SECTION,
    FLOW_SPEC,
    FLOW_KIND,
    FLOW_END,
    FLOW_IMPL_SECTION,
    FLOW_IMPL,
    END_TO_END_FLOW,
    FLOW_SEGMENT,
    // Nodes: modes, from 165 on.
    MODE_SECTION,
    MODE,
    MODE_TRANSITION,
    MODE_TRIGGER,
    // Nodes: property sections, from 169 on.
    PROPERTY_SECTION,
    PROPERTY_ASSOCIATION,
    PROPERTY_REF,
    APPLIES_TO,
    CONTAINMENT_PATH,
    IN_BINDING,
    MODAL_PROPERTY_VALUE,
    // Nodes: property sets, from 176 on.
    PROPERTY_SET,
    PROPERTY_DEFINITION,
    PROPERTY_TYPE,
    PROPERTY_CONSTANT,
    PROPERTY_TYPE_DECL,
    // Nodes: values, from 181 on.
    PROPERTY_EXPRESSION,
    BOOLEAN_VALUE,
    INTEGER_VALUE,
    REAL_VALUE,
    STRING_VALUE,
    RECORD_VALUE,
    RECORD_FIELD,
    LIST_VALUE,
    RANGE_VALUE,
    DELTA_VALUE,
    UNIT_VALUE,
    BINARY_EXPR,
    REFERENCE_VALUE,
    CLASSIFIER_VALUE,
    COMPUTED_VALUE,
    FILE_REFERENCE,
    // Nodes: classifiers, from 197 on.
    CLASSIFIER_REF,
    // Nodes: annexes, from 198 on.
    ANNEX_SUBCLAUSE,
    ANNEX_LIBRARY,
    ANNEX_TEXT,
    // Nodes: arrays, from 201 on.
    ARRAY_DIMENSION,
    ARRAY_SIZE,
    // Nodes: calls, from 203 on.
    CALL_SECTION,
    CALL_SEQUENCE,
    SUBPROGRAM_CALL,
    // Nodes: internal and processor features, from 206 on.
    INTERNAL_FEATURES_SECTION,
    PROCESSOR_FEATURES_SECTION,
    EVENT_SOURCE,
    EVENT_DATA_SOURCE,
    PORT_PROXY,
    SUBPROGRAM_PROXY,
    // Nodes: refinements, from 212 on.
    REFINED_TO,
}

impl Kind {
    /// The kind with a number, if there is one.
    pub fn of(number: u32) -> Option<Kind> {
        Kind::ALL.get(number as usize).copied()
    }

    /// The kind's number.
    pub fn number(self) -> u32 {
        self as u32
    }

    /// Whether it is a space's or a comment's: events do not mention such tokens.
    pub fn is_trivia(self) -> bool {
        matches!(self, Kind::WHITESPACE | Kind::COMMENT)
    }
}

impl fmt::Display for Kind {
    fn fmt(&self, f: &mut fmt::Formatter) -> fmt::Result {
        f.pad(self.name())
    }
}
