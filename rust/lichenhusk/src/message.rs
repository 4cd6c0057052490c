//! A dictionary and an object, asked together.

use crate::{Field, Found, Layer, Reached, Refusal, TreeRefusal, Value};

/// A dictionary and an object over it, as they came.
///
/// It holds the two slices and nothing else: any bytes may be in them, and each question checks
/// both from the start. So what is wanted of a message is best asked in one question, which is
/// what [`children`](Message::children) is for.
///
/// ```
/// use lichenhusk::Message;
///
/// let dict = b"\x11\x02\x00\x04\x08flowroll";
/// let object = b"\x02\x02\x00\x01\x01\x00\x03\x04\x0C\xFB";
/// let message = Message::new(dict, object);
/// let [flow, roll, rol] = message.children(["flow", "roll", "rol"])?;
/// assert_eq!(flow, Some(&[0x0C, 0xFB][..]));
/// assert_eq!(roll, Some(&object[7..]));
/// assert_eq!(rol, None);
/// # Ok::<(), lichenhusk::Refusal>(())
/// ```
#[derive(Clone, Copy, Debug, PartialEq, Eq, Hash)]
pub struct Message<'m> {
    dict: &'m [u8],
    object: &'m [u8],
}

impl<'m> Message<'m> {
    /// The message of a dictionary and an object. Nothing is checked yet.
    pub fn new(dict: &'m [u8], object: &'m [u8]) -> Message<'m> {
        Message { dict, object }
    }

    /// Checks the message, as [`layer`](crate::layer()) does.
    ///
    /// ```
    /// use lichenhusk::{Message, Refusal};
    ///
    /// let dict = b"\x11\x02\x00\x04\x08flowroll";
    /// assert_eq!(Message::new(dict, &[2, 0, 0]).layer()?.fields, 0);
    /// assert_eq!(Message::new(dict, &[0]).layer(), Err(Refusal::ObjectType));
    /// # Ok::<(), Refusal>(())
    /// ```
    pub fn layer(self) -> Result<Layer, Refusal> {
        crate::layer(self.dict, self.object)
    }

    /// Checks the message with all that is below it, as [`check_tree`](crate::check_tree()) does.
    ///
    /// ```
    /// use lichenhusk::{Message, Refusal};
    ///
    /// let dict = b"\x11\x02\x00\x04\x08flowroll";
    /// let message = Message::new(dict, b"\x02\x01\x00\x00\x02\x05\xFF");
    /// let refused = message.check_tree().unwrap_err();
    /// assert_eq!((refused.refusal, refused.start), (Refusal::ValueNotUtf8, 5));
    /// ```
    pub fn check_tree(self) -> Result<usize, TreeRefusal> {
        crate::check_tree(self.dict, self.object)
    }

    /// Looks for the field of a name, as [`lookup`](crate::lookup()) does.
    ///
    /// ```
    /// use lichenhusk::Message;
    ///
    /// let dict = b"\x11\x02\x00\x04\x08flowroll";
    /// let message = Message::new(dict, b"\x02\x02\x00\x01\x01\x00\x03\x04\x0C\xFB");
    /// assert_eq!(message.lookup("roll")?.map(|roll| roll.start), Some(7));
    /// assert_eq!(message.lookup(b"rol")?, None);
    /// # Ok::<(), lichenhusk::Refusal>(())
    /// ```
    pub fn lookup(self, name: impl AsRef<[u8]>) -> Result<Option<Found>, Refusal> {
        crate::lookup(self.dict, self.object, name.as_ref())
    }

    /// The child of a name, as [`child`](crate::child()) hands it back.
    ///
    /// ```
    /// use lichenhusk::Message;
    ///
    /// let dict = b"\x11\x02\x00\x04\x08flowroll";
    /// let message = Message::new(dict, b"\x02\x02\x00\x01\x01\x00\x03\x04\x0C\xFB");
    /// assert_eq!(message.child("flow")?, Some(&[0x0C, 0xFB][..]));
    /// # Ok::<(), lichenhusk::Refusal>(())
    /// ```
    pub fn child(self, name: impl AsRef<[u8]>) -> Result<Option<&'m [u8]>, Refusal> {
        crate::child(self.dict, self.object, name.as_ref())
    }

    /// The value of a name, as [`find`](crate::find()) finds it and [`value`](crate::value()) reads
    /// it; nothing where there is no such field.
    ///
    /// ```
    /// use lichenhusk::{Message, Value};
    ///
    /// let dict = b"\x11\x02\x00\x04\x08flowroll";
    /// let message = Message::new(dict, b"\x02\x02\x00\x01\x01\x00\x03\x04\x0C\xFB");
    /// assert_eq!(message.value("flow")?, Some(Value::I8(-5)));
    /// assert_eq!(message.value("rol")?, None);
    /// # Ok::<(), lichenhusk::Refusal>(())
    /// ```
    pub fn value(self, name: impl AsRef<[u8]>) -> Result<Option<Value<'m>>, Refusal> {
        crate::find(self.dict, self.object, name.as_ref())?.value()
    }

    /// What stands at a path, as [`path`](crate::path()) follows it. The message's value may be of any
    /// kind here.
    ///
    /// ```
    /// use lichenhusk::Message;
    ///
    /// let dict = b"\x11\x02\x00\x04\x08flowroll";
    /// let value = b"\x02\x01\x00\x00\x08\x03\x02\x00\x02\x03\x0C\xFB\x04";
    /// let message = Message::new(dict, value);
    /// assert_eq!(message.path("flow[1]")?.map(|found| found.bytes), Some(&[0x04][..]));
    /// assert_eq!(message.path("roll")?, None);
    /// # Ok::<(), lichenhusk::Refusal>(())
    /// ```
    pub fn path(self, path: impl AsRef<[u8]>) -> Result<Option<Reached<'m>>, Refusal> {
        crate::path(self.dict, self.object, path)
    }

    /// The value at a path, as [`path`](Message::path) finds it and [`value`](crate::value()) reads it.
    ///
    /// ```
    /// use lichenhusk::{Message, Value};
    ///
    /// let dict = b"\x11\x02\x00\x04\x08flowroll";
    /// let value = b"\x02\x01\x00\x00\x08\x03\x02\x00\x02\x03\x0C\xFB\x04";
    /// let message = Message::new(dict, value);
    /// assert_eq!(message.value_at("flow[0]")?, Some(Value::I8(-5)));
    /// assert_eq!(message.value_at("flow[2]")?, None);
    /// # Ok::<(), lichenhusk::Refusal>(())
    /// ```
    pub fn value_at(self, path: impl AsRef<[u8]>) -> Result<Option<Value<'m>>, Refusal> {
        self.path(path)?.map(Reached::value).transpose()
    }

    /// Lists the fields, as [`list`](crate::list()) does.
    ///
    /// ```
    /// use lichenhusk::Message;
    ///
    /// let dict = b"\x11\x02\x00\x04\x08flowroll";
    /// let message = Message::new(dict, b"\x02\x02\x00\x01\x01\x00\x03\x04\x0C\xFB");
    /// let children: Vec<&[u8]> = message.list()?.iter().map(|field| field.child).collect();
    /// assert_eq!(children, [&[0x0C, 0xFB][..], &[0x04]]);
    /// # Ok::<(), lichenhusk::Refusal>(())
    /// ```
    pub fn list(self) -> Result<Vec<Field<'m>>, Refusal> {
        crate::list(self.dict, self.object)
    }

    /// Looks for the fields of many names, as [`lookup_all`](crate::lookup_all()) does.
    ///
    /// ```
    /// use lichenhusk::Message;
    ///
    /// let dict = b"\x11\x02\x00\x04\x08flowroll";
    /// let message = Message::new(dict, b"\x02\x02\x00\x01\x01\x00\x03\x04\x0C\xFB");
    /// let wanted = vec![String::from("flow"), String::from("rol")];
    /// let found = message.lookup_all(&wanted)?;
    /// assert_eq!(found, [message.lookup("flow")?, None]);
    /// # Ok::<(), lichenhusk::Refusal>(())
    /// ```
    pub fn lookup_all<N: AsRef<[u8]>>(self, names: &[N]) -> Result<Vec<Option<Found>>, Refusal> {
        crate::lookup_all(self.dict, self.object, names)
    }

    /// The children of some names, in the order of the names, at one check of the message.
    ///
    /// They live as long as the message's bytes; the names may go before.
    ///
    /// ```
    /// use lichenhusk::Message;
    ///
    /// let dict = b"\x11\x02\x00\x04\x08flowroll";
    /// let object = b"\x02\x02\x00\x01\x01\x00\x03\x04\x0C\xFB";
    /// let [flow, roll] = Message::new(dict, object).children(["flow", "roll"])?;
    /// assert_eq!((flow, roll), (Some(&object[8..]), Some(&object[7..])));
    /// # Ok::<(), lichenhusk::Refusal>(())
    /// ```
    pub fn children<const N: usize>(
        self,
        names: [impl AsRef<[u8]>; N],
    ) -> Result<[Option<&'m [u8]>; N], Refusal> {
        let found = self.lookup_all(&names)?;
        let child = |index: usize| found[index].map(|found| found.child_of(self.object));
        Ok(std::array::from_fn(child))
    }
}
