pub fn with_array_brackets(text: String, _dimensions: usize) -> String {
    text
}
