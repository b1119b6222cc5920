//! Bytes of a type, by the fields that the compiler noted of it.

use crate::json::{parse, Json};

/// Where a value may lie, and how many bytes it takes there.
#[derive(Clone, Copy)]
struct Layout {
    size: usize,
    alignment: usize,
}

impl Layout {
    fn followed_by(self, field: Layout) -> Layout {
        Layout {
            size: self.size.next_multiple_of(field.alignment) + field.size,
            alignment: self.alignment.max(field.alignment),
        }
    }
}

/// The types that the functions of one crate use.
pub struct Types {
    functions: Json,
}

impl Types {
    pub fn new(notes: &str) -> Result<Types, String> {
        let functions = parse(notes).ok_or("the compiler's notes are not understood")?;
        Ok(Types { functions })
    }

    /// The size of a struct: its fields lie in their order, each at the
    /// next place that its alignment allows, and so does what follows.
    pub fn size(&self, name: &str) -> Result<usize, String> {
        Ok(self.layout(name)?.size)
    }

    fn layout(&self, name: &str) -> Result<Layout, String> {
        let fields = self.fields(name).ok_or(format!("no fields of {} are noted", name))?;
        let mut layout = Layout { size: 0, alignment: 1 };
        for field in fields {
            layout = layout.followed_by(self.field_layout(field)?);
        }
        Ok(Layout { size: layout.size.next_multiple_of(layout.alignment), ..layout })
    }

    fn field_layout(&self, field: &Json) -> Result<Layout, String> {
        if field.text() == Some("Bool") {
            return Ok(Layout { size: 1, alignment: 1 });
        }
        if let Some(bits) = field.get("Int").and_then(Json::number) {
            return Ok(Layout { size: bits / 8, alignment: bits / 8 });
        }
        if let Some(name) = field.get("Named").and_then(|named| named.list()?.first()?.get("name")?.text()) {
            return self.layout(name);
        }
        match field.get("Array").and_then(Json::list) {
            Some([element, length]) => {
                let length = length.get("Lit").and_then(Json::number);
                let element = self.field_layout(element)?;
                let size = element.size * length.ok_or("an array has no length")?;
                Ok(Layout { size, ..element })
            }
            _ => Err(format!("a field is not understood: {:?}", field)),
        }
    }

    /// Each function's notes are its name and an object.
    fn fields(&self, name: &str) -> Option<&[Json]> {
        for function in self.functions.list()? {
            for noted in function.list()?.get(1)?.get("types")?.list()? {
                if noted.get("name")?.text()? == name {
                    return noted.get("shape")?.get("Fields")?.list();
                }
            }
        }
        None
    }
}
