import cedar_validator

SCHEMA = """
entity User { vip?: Bool };
entity Photo { owner: User };
action view appliesTo { principal: User, resource: Photo };
"""
POLICIES = {
    "owners": "permit(principal, action, resource) when { resource.owner == principal };",
    "vips": "permit(principal, action, resource) when { principal.vip };",
}

answer = cedar_validator.validate({"schema": SCHEMA, "policies": {"staticPolicies": POLICIES}})
for it in answer.get("validationErrors", answer.get("errors")):
    error = it.get("error", it)
    print(it.get("policyId"), error["code"], error["message"], error["sourceLocations"])
