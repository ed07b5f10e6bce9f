//! Stand-in for error_forge: the trait that error.rs implements.

/// What a domain error says of itself.
pub trait ForgeError: std::error::Error {
    /// The name of its kind.
    fn kind(&self) -> &'static str;
    /// A heading for it.
    fn caption(&self) -> &'static str;
    /// Whether trying again may help.
    fn is_retryable(&self) -> bool;
}
