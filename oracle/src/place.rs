//! The places of documents 01 and 02: the number, the name and the words of each, as a listing says them that tells where a record broke.

macro_rules! places {
    ($($number:literal $name:ident $words:literal,)*) => {
        $(pub const $name: usize = $number;)*

        pub fn words(place: usize) -> &'static str {
            match place {
                $($number => $words,)*
                _ => panic!("no words are known for place {place}"),
            }
        }
    };
}

places! {
    0 DATA "data",
    1 REFERENCE_FIXED "reference fixed fields",
    2 PROFILE_COUNT "profile count",
    3 PROFILE_HEADER "profile header",
    4 REFERENCE_LEFTOVER "reference leftover",
    5 BIOP_FIXED "BIOP fixed fields",
    6 OBJECT_LOCATION_HEADER "ObjectLocation header",
    7 OBJECT_LOCATION_FIXED "ObjectLocation fixed fields",
    8 OBJECT_LOCATION_LEFTOVER "ObjectLocation leftover",
    9 CONN_BINDER_HEADER "ConnBinder header",
    10 TAP_COUNT "tap count",
    11 TAP_FIXED "tap fixed fields",
    12 CONN_BINDER_LEFTOVER "ConnBinder leftover",
    13 BIOP_EXTRA_HEADER "BIOP extra header",
    14 BIOP_LEFTOVER "BIOP leftover",
    15 LITE_OPTIONS_FIXED "LiteOptions fixed fields",
    16 SERVICE_LOCATION_HEADER "ServiceLocation header",
    17 ADDRESS_LENGTH "address length",
    18 ADDRESS "address",
    19 NAME_COUNT "name count",
    20 ID_LENGTH "id length",
    21 KIND_LENGTH "kind length",
    22 CONTEXT_LENGTH "context length",
    23 SERVICE_LOCATION_LEFTOVER "ServiceLocation leftover",
    24 LITE_OPTIONS_EXTRA_HEADER "LiteOptions extra header",
    25 LITE_OPTIONS_LEFTOVER "LiteOptions leftover",
    26 SHORT_ID_LENGTH "8-bit id length",
    27 SHORT_KIND_LENGTH "8-bit kind length",
    28 BIOP_ORDER "BIOP order octet",
    29 OBJECT_LOCATION_TAG "ObjectLocation tag",
    30 CONN_BINDER_TAG "ConnBinder tag",
    31 LITE_OPTIONS_ORDER "LiteOptions order octet",
    32 SERVICE_LOCATION_TAG "ServiceLocation tag",
    33 TYPE_ID_LENGTH "type id length",
    34 BIOP_COMPONENT_COUNT "BIOP component count",
    35 LITE_OPTIONS_COMPONENT_COUNT "LiteOptions component count",
    36 ADDRESS_LENGTH_VALUE "address length",
    40 PROFILES "table of profiles",
    41 TAPS "table of taps",
    42 NAMES "table of names",
    43 EXTRAS "table of extras",
    46 GAP_VALUE "type id gap",
    47 GAP "type id gap",
}
