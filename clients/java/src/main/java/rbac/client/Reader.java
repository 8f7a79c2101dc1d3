package rbac.client;

import java.util.List;
import java.util.Map;

/** Reads the answer to a function. It throws an {@link OfficeException} if the answer has no result. */
interface Reader<T> {
    /** The result of an answer with a status and a text. */
    T read(int status, String text);

    /** That of a command without a value. */
    Reader<Void> DONE = (status, text) -> {
        if (status == 200 && text.equals("{\"ok\":true}")) {
            return null;
        }
        throw refusal(status, text);
    };

    /** That of a decision: true only after the one answer that allows. */
    Reader<Boolean> ACCESS = (status, text) -> {
        if (status == 200 && text.equals("{\"ok\":true,\"value\":true}")) {
            return true;
        }
        if (status == 200 && text.equals("{\"ok\":true,\"value\":false}")) {
            return false;
        }
        throw refusal(status, text);
    };

    Reader<List<String>> NAMES = (status, text) -> value(status, text, json -> json.list(json::text));

    Reader<Long> COUNT = (status, text) -> value(status, text, Json::number);

    Reader<List<Permission>> PERMISSIONS = (status, text) -> value(status, text, json -> json.list(() -> permission(json)));

    Reader<ImportReport> IMPORT = (status, text) -> value(status, text, Reader::report);

    Reader<Session.Opened> OPENED = (status, text) -> value(status, text, Reader::opened);

    /** What reads a value. */
    interface Value<T> {
        T read(Json json);
    }

    private static <T> T value(int status, String text, Value<T> value) {
        var json = new Json(text);
        if (status == 200 && json.skips("{\"ok\":true,\"value\":")) {
            var found = value.read(json);
            json.need("}");
            if (json.isRead()) {
                return found;
            }
        }
        throw refusal(status, text);
    }

    private static Permission permission(Json json) {
        json.need("[");
        var object = json.text();
        json.need(",");
        var operation = json.text();
        json.need("]");
        return new Permission(object, operation);
    }

    private static ImportReport report(Json json) {
        json.need("{\"already\":");
        var already = json.number();
        json.need(",\"assigned\":");
        var assigned = json.number();
        json.need(",\"refused\":");
        var refused = json.list(() -> {
            json.need("{\"code\":");
            var code = (int) json.number();
            json.need(",\"record\":");
            var record = json.number();
            json.need("}");
            return new ImportReport.RefusedRecord(record, code);
        });
        json.need("}");
        return new ImportReport(already, assigned, refused);
    }

    private static Session.Opened opened(Json json) {
        json.need("{\"left\":");
        var left = json.list(() -> leftOut(json));
        json.need(",\"roles\":");
        var roles = json.list(json::text);
        json.need(",\"session\":");
        var name = json.text();
        json.need(name.isEmpty() ? "a name" : "}");
        return new Session.Opened(name, roles, left);
    }

    private static LeftOut leftOut(Json json) {
        json.need("{\"code\":");
        var code = (int) json.number();
        json.need(",\"error\":");
        var refusal = json.text();
        var kind = json.skips(",\"kind\":") ? json.text() : "";
        json.need(",\"role\":");
        var role = json.text();
        var set = kind.isEmpty() && json.skips(",\"set\":") ? json.text() : "";
        json.need(role.isEmpty() || refusal.isEmpty() ? "a name" : "}");
        return new LeftOut(role, code, refusal, kind.isEmpty() ? set : kind);
    }

    /** The refusal that an answer is, or an error that says that it is none. */
    private static OfficeException refusal(int status, String text) {
        var json = new Json(text);
        json.need("{\"code\":");
        var code = (int) json.number();
        json.need(",\"error\":");
        var name = json.text();
        Map<String, Object> details = Map.of();
        for (var key : List.of("set", "kind", "record", "version")) {
            if (json.skips(",\"" + key + "\":")) {
                var isText = key.equals("set") || key.equals("kind");
                details = Map.of(key, isText ? (Object) json.text() : (Object) json.number());
                break;
            }
        }
        json.need("}");
        var isNamed = Functions.NAMES.getOrDefault(code, name).equals(name);
        if (json.isRead() && isNamed && Functions.STATUSES.getOrDefault(code, List.of(409)).contains(status)) {
            return OfficeException.refused(code, name, details);
        }
        var message = "no answer of rbac: status " + status + ", a text of " + text.length();
        return OfficeException.failed(Reason.ofStatus(status), true, message, null);
    }
}
