//! Small texts that show the rules of the standard at work, each with what it gives for an input, and
//! texts that have no meaning.

/// A text with the input x, and the value of its output t0.
pub struct Example {
    pub text: String,
    pub x: i16,
    pub value: i128,
}

/// A module that gives this expression, with these nets before it.
fn module(nets: &str, expression: &str) -> String {
    format!(
        "module smoother(input signed [15:0] x, output signed [63:0] t0);\n\
         {nets}assign t0 = {expression};\nendmodule\n"
    )
}

/// The row of the sample.
const SAMPLE: &str = "wire signed [63:0] n0;\nassign n0 = x;\n";
/// Unsigned copies of the sample: 16 bits of it, and its lowest bit.
const UNSIGNED: &str = "wire [15:0] u;\nassign u = x;\nwire [0:0] w;\nassign w = x;\n";
/// -1 in 4 bits and 2 in 8.
const AMOUNTS: &str = "wire signed [3:0] a;\nassign a = -1;\nwire signed [7:0] b;\nassign b = 2;\n";

/// Nets, expression, input, value.
const RULES: [(&str, &str, i16, i128); 26] = [
    // Sums bind more than shifts, a minus sign more than both; equal ones go from the left.
    (SAMPLE, "n0 <<< 1 + 1", 5, 20),
    (SAMPLE, "n0 + n0 <<< 1", 5, 20),
    (SAMPLE, "n0 + (n0 <<< 1)", 5, 15),
    (SAMPLE, "- n0 <<< 2", 5, -20),
    (SAMPLE, "- n0 + n0", 5, 0),
    (SAMPLE, "-(n0 + n0)", 5, -10),
    (SAMPLE, "n0 - n0 - n0", 5, -5),
    (SAMPLE, "n0 - (n0 - n0)", 5, 5),
    (SAMPLE, "n0 <<< 1 <<< 2", 5, 40),
    (SAMPLE, "n0 <<< (1 <<< 2)", 5, 80),
    // Every operand gets the width of the whole, and its sign where all are signed.
    ("", "-x", -32768, 32768),
    ("", "x + x", -32768, -65536),
    ("", "x <<< 16", -32768, -1 << 31),
    ("", "x - 1", -32768, -32769),
    ("", "0", -3, 0),
    (UNSIGNED, "u", -3, 65533),
    (UNSIGNED, "x + u", -3, 131_066),
    (UNSIGNED, "u + x", -3, 131_066),
    (UNSIGNED, "-u", -3, -65533),
    (UNSIGNED, "(x + 0) - (u - u)", -3, 65533),
    // A shift amount has no say in the sign or the width, and is read as unsigned.
    (UNSIGNED, "x <<< w", -3, -6),
    (UNSIGNED, "x + (x <<< w)", -3, -9),
    (AMOUNTS, "x <<< a", 1, 1 << 15),
    (AMOUNTS, "x <<< a + b", 1, 2),
    (SAMPLE, "n0 <<< 63", 3, -1 << 63),
    (SAMPLE, "n0 <<< 64", 3, 0),
];

/// Whole texts: a narrow output, no blanks where none are needed, an unsigned input, and assigns in
/// another order.
const WHOLE: [(&str, i16, i128); 4] = [
    (
        "module m(input signed [15:0] x, output signed [7:0] t0);assign t0 = x + 1;endmodule",
        383,
        -128,
    ),
    (
        "module m(input signed[15:0]x,output[3:0]t0);assign t0=x<<<1;endmodule",
        -3,
        10,
    ),
    (
        "module m(input [15:0] x, output signed [63:0] t0);\tassign t0 = -(x);\nendmodule\n\n",
        -3,
        -65533,
    ),
    (
        "module m(input signed [15:0] x, output signed [63:0] t0);\n\
         wire signed [63:0] n0;\nassign t0 = n0 <<< 1;\nassign n0 = x;\nendmodule\n",
        -3,
        -6,
    ),
];

pub fn rules() -> Vec<Example> {
    let small = RULES.map(|(nets, expression, x, value)| Example {
        text: module(nets, expression),
        x,
        value,
    });
    let whole = WHOLE.map(|(text, x, value)| Example {
        text: text.to_string(),
        x,
        value,
    });
    small.into_iter().chain(whole).collect()
}

/// What is wrong, what stands in a good text, and what stands there instead.
const WRONG: [(&str, &str, &str); 23] = [
    ("no endmodule", "endmodule\n", ""),
    ("something after it", "endmodule", "endmodule;"),
    ("an unknown name", "n0 <<<", "n1 <<<"),
    (
        "a wire assigned twice",
        "endmodule",
        "assign n0 = 0;\nendmodule",
    ),
    (
        "an output assigned twice",
        "endmodule",
        "assign t0 = 0;\nendmodule",
    ),
    (
        "the input assigned",
        "endmodule",
        "assign x = 0;\nendmodule",
    ),
    ("a wire never assigned", "assign n0 = x;\n", ""),
    ("an output never assigned", "assign t0 = n0 <<< 2;\n", ""),
    (
        "a wire declared twice",
        "endmodule",
        "wire signed [63:0] n0;\nendmodule",
    ),
    ("a net that depends on itself", "n0 = x", "n0 = n0"),
    ("a keyword as a name", "n0", "reg"),
    ("a name that starts with a digit", "n0", "0n"),
    ("a shift in two parts", "<<<", "<< <"),
    ("another shift", "<<<", "<<"),
    ("an operator too many", "<<<", "<<<<"),
    ("two minus signs", "n0 <<<", "--n0 <<<"),
    ("no operand", "<<< 2", "<<<"),
    ("a parenthesis left open", "n0 <<<", "(n0 <<<"),
    ("no semicolon", "2;", "2"),
    ("a number of 2^31", "2;", "2147483648;"),
    (
        "bits that do not end at 0",
        "wire signed [63:0]",
        "wire signed [63:1]",
    ),
    ("no input", "input", "output"),
    ("another operator", "n0 <<< 2", "n0 * 2"),
];

/// What is wrong, and a text with that.
pub fn without_meaning() -> Vec<(&'static str, String)> {
    let good = module(SAMPLE, "n0 <<< 2");
    let texts = WRONG.iter().map(|(what, old, new)| {
        assert!(good.contains(old), "{old}");
        (*what, good.replace(old, new))
    });
    texts.chain([("nothing at all", String::new())]).collect()
}
