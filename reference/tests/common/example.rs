//! The scripts of `examples/` as tests.

/// A test that the test file's `answer` gives for an example's script, a file with this ending,
/// what is stored beside it.
macro_rules! example {
    ($name:ident, $file:literal, $ending:literal) => {
        #[test]
        fn $name() {
            let script = include_bytes!(concat!("../../examples/", $file, $ending));
            let expected = include_str!(concat!("../../examples/", $file, ".expected"));
            assert_eq!(answer(script), expected);
        }
    };
}
