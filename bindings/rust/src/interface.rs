/// The number of the interface that these bindings are written for: the first number of the library's version, and
/// `SPLICEBELL_INTERFACE` of its header. It goes up where a struct or a call has changed, so that a program built
/// before could not run with the library. Where the library that is installed has another number, the bindings are
/// not built.
///
/// ```
/// assert_eq!(splicebell::INTERFACE, 4);
/// ```
pub const INTERFACE: u64 = 4;
