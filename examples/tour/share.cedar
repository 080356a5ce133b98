// Everyone sees what is public, and the owner's lead sees it all.
@id("public")
permit(principal, action == Action::"view", resource)
when { resource.isPubic };

@id("lead")
permit(principal, action == Action::"view", resource)
when { resource.owner.team.lead == principal };

@id("marked")
permit(principal, action, resource)
when { principal.vip && context.now > resource.taken };

@id("old")
forbid(principal, action in [Action::"edit", Action::"delete"], resource)
unless { resource.taken > datetime("2020-13-01") };
