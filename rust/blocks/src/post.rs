//! A post and its bytes.

/// The bytes of a post.
pub const POST: usize = 48;

/// A stage's holding of a substance, by their places.
pub type Holding = (u8, u8);

/// A post by its fields.
#[derive(Clone, Copy, Debug, Default, PartialEq)]
pub struct Post {
    /// 1 to 14.
    pub kind: u8,
    /// The material, or the form in kind 12.
    pub material: u8,
    /// The stage's place.
    pub stage: u8,
    /// The substance's place.
    pub substance: u8,
    /// In ppm.
    pub content: u32,
    /// In g, or in micrograms in kind 4.
    pub quantity: u64,
    /// w, u, p and q by their bits.
    pub floats: [u64; 4],
}

impl Post {
    /// Kind 13.
    pub const CLOSE: Post = Post {
        kind: 13,
        material: 0,
        stage: 0,
        substance: 0,
        content: 0,
        quantity: 0,
        floats: [0; 4],
    };

    /// Kind 1 or 2: a material enters the store.
    pub fn stock(kind: u8, material: u8, quantity: u64) -> Post {
        Post {
            kind,
            material,
            quantity,
            ..Post::default()
        }
    }

    /// Kind 3.
    pub fn issued(material: u8, stage: u8, quantity: u64) -> Post {
        Post {
            kind: 3,
            material,
            stage,
            quantity,
            ..Post::default()
        }
    }

    /// Kind 4.
    pub fn formed((stage, substance): Holding, quantity: u64) -> Post {
        Post {
            kind: 4,
            stage,
            substance,
            quantity,
            ..Post::default()
        }
    }

    /// Kinds 5 to 11.
    pub fn left(kind: u8, (stage, substance): Holding, content: u32, quantity: u64) -> Post {
        Post {
            kind,
            stage,
            substance,
            content,
            quantity,
            ..Post::default()
        }
    }

    /// Kind 12.
    pub fn vapour(form: u8, (stage, substance): Holding, floats: [u64; 4]) -> Post {
        Post {
            kind: 12,
            material: form,
            stage,
            substance,
            floats,
            ..Post::default()
        }
    }

    /// Kind 14.
    pub fn found(holding: Holding, content: u32, quantity: u64) -> Post {
        Post::left(14, holding, content, quantity)
    }

    /// The post's 48 bytes.
    pub fn bytes(&self) -> [u8; POST] {
        let mut bytes = [0; POST];
        bytes[..4].copy_from_slice(&[self.kind, self.material, self.stage, self.substance]);
        bytes[4..8].copy_from_slice(&self.content.to_le_bytes());
        bytes[8..16].copy_from_slice(&self.quantity.to_le_bytes());
        with_floats(bytes, self.floats)
    }
}

/// A post's bytes with other floats, by their bits.
pub fn with_floats(mut post: [u8; POST], floats: [u64; 4]) -> [u8; POST] {
    for (place, bits) in post[16..].chunks_mut(8).zip(floats) {
        place.copy_from_slice(&bits.to_le_bytes());
    }
    post
}
