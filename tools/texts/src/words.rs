//! AADL's words and marks as texts, and sections written for these tools.

pub const KEYWORDS: &str = "package public private with end none renames system process thread group processor virtual bus \
    memory device subprogram data abstract implementation extends prototypes features flows connections modes properties \
    subcomponents annex calls internal in out port event access provides requires feature parameter inverse of flow source \
    sink path initial mode transition constant applies to inherit delta is all binding classifier reference record compute \
    type set range units enumeration list aadlboolean aadlinteger aadlreal aadlstring property true false not and or refined \
    self interface file";

pub const MARKS: &str = "; : , . .. ( ) { } [ ] -> <-> => +=> + - * / :: {** **} # -[ ]-> < = > ! ' & | @ ~ ? $ % \\ `";

pub const LITERALS: &str =
    "0 1 42 007 1_000 1_ 3.14 1. 1.5e3 1e5 1E+5 2e- 16#FF# 2#1010_1010# 16#F.E#e+2 16# 16#. 10#9 0x1F 0b10 0o17 0X \
    0b2 0o8 00x1 0xg 0B1_z \"\" \"a\" \"a\"\"b\" \"--x\" 1..2 1.e 1.e+ 9e 1#e 10eV 1.5ms";

/// Literals that are each one token and no error.
pub const CLEAN_LITERALS: &str = "0 1 42 1_000 3.14 1.5e-3 1E5 16#FF# 2#1010_1010# 16#F.E#e+2 \"\" \"a\" \"a\"\"b\" \"--x\"";

pub const NAMES: &str = "a b Period cpu _x x1 in_ modes1 NOT_ a_b_c Deployment_Properties ms us KByte nOne_";

pub const SECTIONS: [&str; 8] = [
    "properties\n  Dispatch_Protocol => Periodic;\n  Period => 20 ms;\n  Compute_Execution_Time => 1 ms .. 5 ms;\n  Deadline => 16#FF# us in modes (nominal, degraded);\n",
    "properties\n  Actual_Processor_Binding => (reference (cpu.cores[0])) applies to app.control, app.io[1 .. 3];\n  Actual_Memory_Binding => (reference (ram)) applies to app in binding (Hardware::Board.basic);\n",
    "properties none;",
    "-- the gateway's ports\nproperties\n  Queue_Size +=> 16 applies to uplink;\n  Overflow_Handling_Protocol => DropOldest;\n  Input_Rate => [ Value_Range => 1.0 .. 10.0 delta 0.5; Rate_Unit => PerSecond; Rate_Distribution => Fixed; ];\n",
    "PROPERTIES\n\tSource_Text => (\"gate.c\", \"can\"\"bus.c\");\r\n\tSource_Language => (C, Ada95);\r\n\tBase_Address => 16#4000_3000#;\r\n\tAllowed => classifier (Buses::Can.fast (T => in out event data port Frames::Raw, U => virtual bus, V => feature group));\r\n",
    "properties\n  Limits::Load => -1 + 2 * (3 - Limits::Base) / +4.5e-1 ms;\n  Limits::Safe => not true;\n  Limits::Next => compute (f) in modes (m => n, o), constant in modes (p);\n",
    "properties\n  Wide => constant not not (1 .. 2 delta 3, ((), (a, -b), [x => [y => \"z\";];]));\n  Flag => true in modes (), false in modes (a,);\n  Bad => 0x40003000;\n  end : 1;\n",
    "properties -- été 日本 𝄞\n  Name => \"naïve café\";\n  É => 1;\n  A::in => 2;\n  B:: => 3;\n  C => D::E::in::;\n",
];
