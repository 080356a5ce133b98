// The same policies, mended.
@id("public")
permit(principal, action == Action::"view", resource)
when { resource.isPublic };

@id("lead")
permit(principal, action == Action::"view", resource)
when { resource.owner.team.lead == principal };

@id("marked")
permit(principal, action == Action::"view", resource)
when { principal has vip && principal.vip && context.now > resource.taken };

@id("old")
forbid(principal, action in [Action::"edit", Action::"delete"], resource)
unless { resource.taken > datetime("2020-12-01") };
