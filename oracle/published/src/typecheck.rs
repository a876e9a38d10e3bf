//! Stand-in for the typechecker: a template carries what typechecking would give.

use crate::types::Type;
use crate::{ValidationMode, ValidatorSchema};
use cedar_policy_core::ast::{Expr, Policy, RequestType, Template};
use std::sync::Arc;

#[derive(Debug, Clone)]
pub struct RequestEnv {
    pub request_type: Option<RequestType>,
}

impl RequestEnv {
    pub fn to_request_type(&self) -> Option<RequestType> {
        self.request_type.clone()
    }
}

#[derive(Debug, Clone)]
pub enum PolicyCheck {
    Success(Expr<Option<Type>>),
    Irrelevant(Vec<String>, Expr<Option<Type>>),
    Fail(Vec<String>),
}

pub fn policy(checked: Vec<(RequestEnv, PolicyCheck)>) -> Policy {
    Policy::new(Template { checked: Arc::new(checked) })
}

pub struct Typechecker {}

impl Typechecker {
    pub fn new(_schema: &ValidatorSchema, _mode: ValidationMode) -> Self {
        Typechecker {}
    }

    pub fn typecheck_by_request_env(&self, template: &Template) -> Vec<(RequestEnv, PolicyCheck)> {
        template.checked.downcast_ref::<Vec<(RequestEnv, PolicyCheck)>>().expect("a template of typecheck::policy").clone()
    }
}
