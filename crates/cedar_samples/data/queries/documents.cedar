@id("owners")
permit(principal, action, resource) when { resource.owner == principal || resource.level <= 1 };

@id("teams")
permit(principal, action == Action::"view", resource) when { principal in resource.team && !resource.draft };

@id("reviewers")
permit(principal, action == Action::"view", resource) when { resource has reviewer && resource.reviewer == principal };

@id("drafts")
forbid(principal, action == Action::"share", resource) when { resource.draft } unless { resource has note && resource.note like "ok*" };
