//! The fields of a `DeletePermit` are private: serde makes one of any fields.
use okv_publication::*;
use serde_json::json;

pub fn permit(
    key: &str,
    identity: &ObjectIdentity,
    plan_id: &str,
    owner_generation: u64,
    authority_position: AuthorityPosition,
) -> DeletePermit {
    serde_json::from_value(json!({
        "key": key,
        "identity": identity,
        "plan_id": plan_id,
        "owner_generation": owner_generation,
        "authority_position": authority_position,
    }))
    .expect("the fields of a permit")
}
