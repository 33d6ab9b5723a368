import java.io.BufferedReader;
import java.io.IOException;
import java.io.InputStreamReader;
import java.nio.charset.StandardCharsets;
import java.util.Arrays;
import java.util.HexFormat;
import org.bouncycastle.asn1.ASN1Encodable;
import org.bouncycastle.asn1.ASN1Encoding;
import org.bouncycastle.asn1.ASN1ObjectIdentifier;
import org.bouncycastle.asn1.crmf.AttributeTypeAndValue;
import org.bouncycastle.asn1.crmf.CertId;
import org.bouncycastle.asn1.crmf.CertReqMessages;
import org.bouncycastle.asn1.crmf.CertReqMsg;
import org.bouncycastle.asn1.crmf.CertRequest;
import org.bouncycastle.asn1.crmf.CertTemplate;
import org.bouncycastle.asn1.crmf.POPOSigningKey;
import org.bouncycastle.asn1.x509.Extension;
import org.bouncycastle.asn1.x509.Extensions;
import org.bouncycastle.asn1.x509.SubjectPublicKeyInfo;
import org.bouncycastle.cert.X509CertificateHolder;
import org.bouncycastle.cert.crmf.CertificateRequestMessage;
import org.bouncycastle.pkcs.PKCS10CertificationRequest;

/**
 * Parses certificates and requests with Bouncy Castle and prints their fields.
 *
 * <p>Each line of the standard input is a kind (certificate, request or messages), a name and the octets in
 * hexadecimal, with spaces between. Each field becomes a line: the name, the field and its value. Where
 * Bouncy Castle refuses the octets, the field is {@code refused}.
 */
public final class Requests {
    private static final ASN1ObjectIdentifier OLD_CERT_ID = new ASN1ObjectIdentifier("1.3.6.1.5.5.7.5.1.5");
    private static final String[] PROOFS = {"raVerified", "signature", "keyEncipherment", "keyAgreement"};

    private final String name;

    private Requests(String name) {
        this.name = name;
    }

    public static void main(String[] words) throws IOException {
        BufferedReader input = new BufferedReader(new InputStreamReader(System.in, StandardCharsets.US_ASCII));
        for (String line = input.readLine(); line != null; line = input.readLine()) {
            String[] parts = line.split(" ");
            new Requests(parts[1]).tell(parts[0], HexFormat.of().parseHex(parts[2]));
        }
    }

    private void tell(String kind, byte[] octets) {
        try {
            switch (kind) {
                case "certificate" -> tellCertificate(octets);
                case "request" -> tellRequest(octets);
                case "messages" -> tellMessages(octets);
                default -> tell("refused", "unknown kind " + kind);
            }
        } catch (IOException | RuntimeException fault) {
            tell("refused", fault);
        }
    }

    private void tellCertificate(byte[] octets) throws IOException {
        X509CertificateHolder certificate = new X509CertificateHolder(octets);
        tell("version", certificate.getVersionNumber());
        tell("serial", certificate.getSerialNumber());
        tell("innerAlgorithm", certificate.toASN1Structure().getTBSCertificate().getSignature().getAlgorithm());
        tell("issuer", certificate.getIssuer());
        tell("notBefore", certificate.getNotBefore().toInstant());
        tell("notAfter", certificate.getNotAfter().toInstant());
        tell("subject", certificate.getSubject());
        tellKey(certificate.getSubjectPublicKeyInfo());
        tellExtensions(certificate.getExtensions());
        tell("algorithm", certificate.getSignatureAlgorithm().getAlgorithm());
        tell("signature", HexFormat.of().formatHex(certificate.getSignature()));
        tellSame(certificate.toASN1Structure(), octets);
    }

    private void tellRequest(byte[] octets) throws IOException {
        PKCS10CertificationRequest request = new PKCS10CertificationRequest(octets);
        tell("version", request.toASN1Structure().getCertificationRequestInfo().getVersion());
        tell("subject", request.getSubject());
        tellKey(request.getSubjectPublicKeyInfo());
        tell("attributes", request.getAttributes().length);
        tellExtensions(request.getRequestedExtensions());
        tell("algorithm", request.getSignatureAlgorithm().getAlgorithm());
        tell("signature", HexFormat.of().formatHex(request.getSignature()));
        tellSame(request.toASN1Structure(), octets);
    }

    private void tellMessages(byte[] octets) throws IOException {
        CertReqMessages messages = CertReqMessages.getInstance(octets);
        CertReqMsg[] each = messages.toCertReqMsgArray();
        tell("messages", each.length);
        for (CertReqMsg message : each) {
            tellMessage(new CertificateRequestMessage(message));
        }
        tellSame(messages, octets);
    }

    private void tellMessage(CertificateRequestMessage message) {
        CertRequest request = message.toASN1Structure().getCertReq();
        tell("certReqId", request.getCertReqId());
        CertTemplate template = message.getCertTemplate();
        tell("subject", template.getSubject());
        tellKey(template.getPublicKey());
        tellExtensions(template.getExtensions());
        if (message.hasControls()) {
            for (AttributeTypeAndValue control : request.getControls().toAttributeTypeAndValueArray()) {
                tellControl(control);
            }
        }
        tell("proof", message.hasProofOfPossession() ? PROOFS[message.getProofOfPossessionType()] : "none");
        if (message.hasProofOfPossession() && message.getProofOfPossessionType() == CertificateRequestMessage.popSigningKey) {
            tellSignature(POPOSigningKey.getInstance(message.toASN1Structure().getPopo().getObject()));
        }
    }

    private void tellControl(AttributeTypeAndValue control) {
        if (control.getType().equals(OLD_CERT_ID)) {
            CertId old = CertId.getInstance(control.getValue());
            tell("oldCertID", old.getSerialNumber() + " of " + old.getIssuer().getTagNo() + " " + old.getIssuer().getName());
        } else {
            tell("control", control.getType());
        }
    }

    private void tellSignature(POPOSigningKey proof) {
        tell("input", proof.getPoposkInput() == null ? "none" : "some");
        tell("algorithm", proof.getAlgorithmIdentifier().getAlgorithm());
        tell("signature", HexFormat.of().formatHex(proof.getSignature().getOctets()));
    }

    private void tellKey(SubjectPublicKeyInfo key) {
        tell("keyAlgorithm", key.getAlgorithm().getAlgorithm());
        tell("keyParameters", key.getAlgorithm().getParameters() == null ? "none" : "some");
        tell("key", HexFormat.of().formatHex(key.getPublicKeyData().getOctets()));
    }

    private void tellExtensions(Extensions extensions) {
        if (extensions == null) {
            return;
        }
        for (ASN1ObjectIdentifier identifier : extensions.getExtensionOIDs()) {
            Extension extension = extensions.getExtension(identifier);
            String content = HexFormat.of().formatHex(extension.getExtnValue().getOctets());
            tell("extension", identifier + (extension.isCritical() ? " critical " : " ") + content);
        }
    }

    /** Whether Bouncy Castle writes in DER the octets that it read. */
    private void tellSame(ASN1Encodable read, byte[] octets) throws IOException {
        byte[] written = read.toASN1Primitive().getEncoded(ASN1Encoding.DER);
        tell("writtenAgain", Arrays.equals(written, octets) ? "the same" : "otherwise");
    }

    private void tell(String field, Object value) {
        System.out.println(name + " " + field + " " + value);
    }
}
