@id("owners")
permit(principal, action, resource) when { resource.owner == principal };

@id("team")
permit(principal, action == Action::"view", resource) when { principal in resource.owner.team };

@id("leads")
permit(principal, action == Action::"view", resource) when { resource.owner.team.lead == principal };

@id("levels")
forbid(principal, action, resource) when { 3 < resource.level };
