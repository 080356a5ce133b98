/** What Cedar's FFI takes and answers, and what this library adds. Places are bytes of UTF-8. */
export interface SourceLocation { label: string | null; start: number; end: number }

export interface DetailedError {
    message: string;
    help: string | null;
    code: string | null;
    url: string | null;
    severity: "advice" | "warning" | "error" | null;
    sourceLocations: SourceLocation[];
    related: DetailedError[];
}

export interface ValidationError { policyId: string; error: DetailedError; also?: string[]; environments?: string[] }

/** The verdict on a policy; `level` is absent if it was refused before levels, and null if no level is enough. */
export interface PolicyVerdict { policyId: string; accepted: boolean; level?: number | null; moreFindings: number }

export interface Failure { type: "failure"; errors: DetailedError[]; warnings: DetailedError[] }

export interface Success {
    type: "success";
    validationErrors: ValidationError[];
    validationWarnings: ValidationError[];
    otherWarnings: DetailedError[];
    policies?: PolicyVerdict[];
}

export interface DataVerdict { conforms: boolean; count: number; errors: DetailedError[] }

export interface CheckedData { type: "success"; entities?: DataVerdict; request?: DataVerdict }

export interface Condition {
    principalType: string;
    action: { type: string; id: string };
    resourceType: string;
    principalSlotType?: string;
    resourceSlotType?: string;
    condition: object;
}

export interface Conditions { type: "success"; accepted: boolean; validationErrors: ValidationError[]; conditions: Condition[] }

export interface Settings { mode?: "strict" | "permissive"; level?: number | null; details?: boolean; depth?: number }

/** A policy or a schema: a text in Cedar's syntax, or an object in Cedar's form of JSON. */
export type Policy = string | object;

export interface PolicySet {
    staticPolicies?: string | Policy[] | Record<string, Policy>;
    templates?: Record<string, Policy>;
    templateLinks?: { templateId: string; newId: string; values: Record<string, object> }[];
}

export interface ValidationCall { schema: Policy; policies: string | PolicySet; validationSettings?: Settings }
export interface DataCall { schema: Policy; entities?: object[]; request?: object }
export interface ConditionsCall { schema: Policy; policy: Policy; validationSettings?: Settings }

/** Each takes an object or a text of JSON, blocks until it is answered, and throws an Error if memory is refused. */
export function validate(call: ValidationCall | string): Success | Failure;
export function checkData(call: DataCall | string): CheckedData | Failure;
export function typedConditions(call: ConditionsCall | string): Conditions | Failure;

/** Each answers a promise, which is rejected if memory is refused. Other code runs meanwhile. */
export const promises: {
    validate(call: ValidationCall | string): Promise<Success | Failure>;
    checkData(call: DataCall | string): Promise<CheckedData | Failure>;
    typedConditions(call: ConditionsCall | string): Promise<Conditions | Failure>;
};

/** Why a schema cannot be read. */
export class SchemaError extends Error { readonly failure: Failure }

/**
 * A schema that is read once. Its calls name no schema, and throw an Error if it is closed. It stays in its thread, and is freed at the
 * latest when nothing refers to it.
 */
export class Schema {
    /** Throws a SchemaError if the schema cannot be read. */
    constructor(schema: Policy);
    validate(call: Omit<ValidationCall, "schema"> | string): Success | Failure;
    checkData(call: Omit<DataCall, "schema"> | string): CheckedData | Failure;
    typedConditions(call: Omit<ConditionsCall, "schema"> | string): Conditions | Failure;
    /** Frees the schema. A closed one stays closed. */
    close(): void;
}
