//! Rules as text, in the notation of docs/RULES.md.

#[cfg(feature = "alloc")]
use crate::limits::{MAX_BODY, MAX_TEXT};
use crate::raw;
use crate::refusal::Refusal;
#[cfg(feature = "alloc")]
use alloc::{string::String, vec, vec::Vec};

/// Writes the body of a rule that is typed as in the paper at the start of `body`, and
/// answers its length. Bytes of `body` after it stay; [`MAX_BODY`](crate::MAX_BODY) are
/// always enough. The text is the rule alone, with no line end. Refusals 25, then 26, then
/// the body's own (4 to 10, 23, 24, as [`figures`](crate::figures) finds them), last 22.
///
/// ```
/// use station_watch::{rule_from_text, Refusal};
///
/// let mut body = [0xEE; 5];
/// assert_eq!(rule_from_text(b"monitor x : ~@x.7", &mut body), Ok(4));
/// assert_eq!(body, [2, 1, 0, 7, 0xEE]);
/// assert_eq!(rule_from_text(b"monitor x : ~@y.7", &mut body), Err(Refusal::UnboundName));
/// assert_eq!(rule_from_text(b"monitor x : ~ @x.7", &mut body), Err(Refusal::Misspelt));
/// ```
pub fn rule_from_text(text: &[u8], body: &mut [u8]) -> Result<usize, Refusal> {
    let mut written = 0;
    // SAFETY: pointers and lengths of two slices; `body` is borrowed alone, so it is apart
    // from the other, as is the number of this frame.
    Refusal::unless_0(unsafe {
        raw::sw_rule_from_text(
            text.as_ptr(),
            text.len(),
            body.as_mut_ptr(),
            body.len(),
            &mut written,
        )
    })?;
    Ok(written)
}

/// Writes a body as text at the start of `text`, and answers its length. Bytes of `text`
/// after it stay; [`MAX_TEXT`](crate::MAX_TEXT) are always enough. The rule's own name is x,
/// and ranges have the names y, z, u and v by nesting. Refusals 4 to 10, 23, 24, 22.
///
/// ```
/// use station_watch::{rule_to_text, Refusal};
///
/// let mut text = [0xEE; 18];
/// assert_eq!(rule_to_text(&[2, 1, 0, 7], &mut text), Ok(17));
/// assert_eq!(&text, b"monitor x : ~@x.7\xEE");
/// assert_eq!(rule_to_text(&[2, 1, 0, 7], &mut text[..16]), Err(Refusal::BufferTooShort));
/// assert_eq!(rule_to_text(&[2, 1, 0, 8], &mut text), Err(Refusal::NoSuchFlag));
/// ```
pub fn rule_to_text(body: &[u8], text: &mut [u8]) -> Result<usize, Refusal> {
    let mut written = 0;
    // SAFETY: pointers and lengths of two slices; `text` is borrowed alone, so it is apart
    // from the other, as is the number of this frame.
    Refusal::unless_0(unsafe {
        raw::sw_rule_to_text(body.as_ptr(), body.len(), text.as_mut_ptr(), text.len(), &mut written)
    })?;
    Ok(written)
}

/// The body of a rule that is typed as in the paper. Refusals 25, 26, 4 to 10, 23, 24.
///
/// ```
/// use station_watch::{body_from_text, Refusal};
///
/// let body = body_from_text("monitor x : forall y in x-1..x+2 : @y.0");
/// assert_eq!(body, Ok(vec![5, 2, 0, 0xFF, 0xFF, 2, 0, 2, 0, 1, 1, 0]));
/// let body = body_from_text("monitor x : forall y in y-1..x+2 : @y.0");
/// assert_eq!(body, Err(Refusal::UnboundName));
/// ```
#[cfg(feature = "alloc")]
pub fn body_from_text(text: impl AsRef<[u8]>) -> Result<Vec<u8>, Refusal> {
    let mut body = vec![0; MAX_BODY];
    let written = rule_from_text(text.as_ref(), &mut body)?;
    body.truncate(written);
    Ok(body)
}

/// A body as text. Refusals 4 to 10, 23, 24.
///
/// ```
/// use station_watch::{text_from_body, Refusal};
///
/// let text = text_from_body(&[5, 2, 0, 0xFF, 0xFF, 2, 0, 2, 0, 1, 1, 0])?;
/// assert_eq!(text, "monitor x : forall y in x-1..x+2 : @y.0");
/// # Ok::<(), Refusal>(())
/// ```
#[cfg(feature = "alloc")]
pub fn text_from_body(body: &[u8]) -> Result<String, Refusal> {
    let mut text = vec![0; MAX_TEXT];
    let written = rule_to_text(body, &mut text)?;
    text.truncate(written);
    Ok(text.into_iter().map(char::from).collect()) // it is ASCII
}
